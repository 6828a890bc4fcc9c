//! The datagrams of one tick, one after the other: at most 32 (01, section 6).

use crate::MOST;
use crate::header::{HEADER, Header, Kind, PAYLOAD};

/// Datagrams that may leave in one tick.
const DATAGRAMS: usize = 32;
/// Bytes that one tick may write.
pub const OUTPUT: usize = DATAGRAMS * (HEADER + PAYLOAD);

/// Where a tick writes, and the numbers that it gives out.
pub struct Output<'a> {
    pub bytes: &'a mut [u8],
    pub used: usize,
    pub sent: usize,
    pub epoch: u64,
    /// The last number used.
    pub number: u64,
}

impl Output<'_> {
    /// Whether one more datagram may leave.
    #[inline]
    pub fn room(&self) -> bool {
        self.sent < DATAGRAMS && self.number + 1 < MOST
    }

    /// Writes a header with the next number; the caller fills the payload that is answered.
    #[inline]
    pub fn send(&mut self, kind: Kind, end: bool, length: usize, position: u64, credit: u32) -> &mut [u8] {
        self.sent += 1;
        self.number += 1;
        let header = Header { kind, end, length, epoch: self.epoch, number: self.number, position, credit };
        let datagram = &mut self.bytes[self.used..self.used + HEADER + length];
        self.used += datagram.len();
        header.write(datagram);
        &mut datagram[HEADER..]
    }
}

/// The datagrams of a tick, in the order in which they are to be sent.
#[derive(Clone, Debug)]
pub struct Datagrams<'a> {
    rest: &'a [u8],
}

impl<'a> Datagrams<'a> {
    pub(crate) fn new(rest: &'a [u8]) -> Datagrams<'a> {
        Datagrams { rest }
    }
}

impl<'a> Iterator for Datagrams<'a> {
    type Item = &'a [u8];

    fn next(&mut self) -> Option<&'a [u8]> {
        if self.rest.is_empty() {
            return None;
        }
        let length = usize::from(u16::from_be_bytes([self.rest[2], self.rest[3]]));
        let (datagram, rest) = self.rest.split_at(HEADER + length);
        self.rest = rest;
        Some(datagram)
    }
}
