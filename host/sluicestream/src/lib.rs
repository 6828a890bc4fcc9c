//! A reliable stream of bytes over datagrams, both ways: safe Rust over the proved end.
//!
//! A connection has two ends. An [`End`] never acts by itself: the host gives it bytes and datagrams, ticks its
//! clock, and carries the datagrams that a tick answers. Datagrams may be lost, repeated, delayed and reordered on
//! the way; the bytes that one host takes are a beginning of those that the other gave, always.
//!
//! ```
//! use sluicestream::End;
//!
//! // Both ends of one connection: the same epoch, never used before, and a resend interval of 50 ticks.
//! let mut room = End::open(7, 50)?;
//! let mut gate = End::open(7, 50)?;
//! assert_eq!(room.give(b"GATE 3 TO 40 CM\n"), 16);
//! room.finish();
//!
//! // The first try is lost on the way; after 50 ticks the same bytes are sent again.
//! assert_eq!(room.tick().count(), 1);
//! let mut command = Vec::new();
//! let mut ended = false;
//! while !ended {
//!     for datagram in room.tick() {
//!         gate.datagram(datagram)?;
//!     }
//!     let mut bytes = [0; 256];
//!     let taken = gate.take(&mut bytes);
//!     command.extend_from_slice(&bytes[..taken.count]);
//!     ended = taken.ended;
//!     for datagram in gate.tick() {
//!         room.datagram(datagram)?;
//!     }
//! }
//! assert_eq!(command, b"GATE 3 TO 40 CM\n");
//!
//! // What is not a datagram of this connection is refused, in words, and changes nothing.
//! let refusal = gate.datagram(b"GATE 3 TO 400 CM").unwrap_err();
//! assert_eq!(refusal.number(), 1);
//! assert!(refusal.to_string().starts_with("datagram shorter than 32 bytes"));
//! # Ok::<(), sluicestream::Refusal>(())
//! ```

#![deny(unsafe_code)]
#![warn(missing_docs)]

pub mod ffi;
pub mod lent;
mod refusal;

pub use refusal::Refusal;

use lent::{HEADER, Lent, OUTPUT};

/// One end of a connection, with the buffers it works in.
#[derive(Clone)]
pub struct End {
    lent: Lent,
    output: Box<[u8]>,
}

/// What [`End::take`] answers.
#[derive(Clone, Copy, Debug, PartialEq, Eq)]
pub struct Taken {
    /// Bytes handed up.
    pub count: usize,
    /// Whether the END has been reached: every byte of the peer's stream has been taken.
    pub ended: bool,
}

impl End {
    /// A fresh end.
    ///
    /// Both ends have the same `epoch`, which is never used twice for the same pair of ends. A segment that isn't
    /// acknowledged is sent again every `interval` ticks, 1 to 65,535.
    pub fn open(epoch: u64, interval: u64) -> Result<End, Refusal> {
        let mut lent = Lent::new();
        let Lent { table, outgoing, incoming, marks } = &mut lent;
        Refusal::from_answer(ffi::open(table, outgoing, incoming, marks, epoch, interval))?;
        Ok(End { lent, output: vec![0; OUTPUT].into_boxed_slice() })
    }

    /// Takes as many of the bytes, from the first on, as there is room for, and answers how many.
    ///
    /// There is room for 65,536 bytes that aren't yet acknowledged, and for none after [`finish`](End::finish).
    pub fn give(&mut self, bytes: &[u8]) -> usize {
        open_answer(ffi::give(&mut self.lent.table, &mut self.lent.outgoing, bytes))
    }

    /// No more bytes will be given: the peer will be told the END.
    pub fn finish(&mut self) {
        open_answer(ffi::finish(&mut self.lent.table));
    }

    /// One datagram from the network, of any length and content.
    ///
    /// A refusal changes nothing: it is as if the network had lost the datagram.
    pub fn datagram(&mut self, bytes: &[u8]) -> Result<(), Refusal> {
        let Lent { table, incoming, marks, .. } = &mut self.lent;
        Refusal::from_answer(ffi::datagram(table, incoming, marks, bytes)).map(|_| ())
    }

    /// Hands up bytes that are next in the peer's stream, as many as are here and `out` holds.
    pub fn take(&mut self, out: &mut [u8]) -> Taken {
        let mut ended = 0;
        let count = open_answer(ffi::take(&mut self.lent.table, &mut self.lent.incoming, out, &mut ended));
        Taken { count, ended: ended != 0 }
    }

    /// The clock moves on by one; answers the datagrams to be sent now, at most 32.
    pub fn tick(&mut self) -> Datagrams<'_> {
        let used = open_answer(ffi::tick(&mut self.lent.table, &mut self.lent.outgoing, &mut self.output));
        Datagrams { rest: &self.output[..used] }
    }
}

/// Reads an answer that cannot be a refusal: an `End` is open and its buffers are long enough.
fn open_answer(answer: i64) -> usize {
    Refusal::from_answer(answer).expect("an open end refuses nothing but datagrams")
}

/// The datagrams of a tick, in the order in which they are to be sent.
#[derive(Clone, Debug)]
pub struct Datagrams<'a> {
    rest: &'a [u8],
}

impl<'a> Datagrams<'a> {
    /// Datagrams that stand one after the other, as tick writes them.
    pub fn new(written: &'a [u8]) -> Datagrams<'a> {
        Datagrams { rest: written }
    }
}

impl<'a> Iterator for Datagrams<'a> {
    type Item = &'a [u8];

    fn next(&mut self) -> Option<&'a [u8]> {
        if self.rest.is_empty() {
            return None;
        }
        let length = usize::from(u16::from_be_bytes([self.rest[2], self.rest[3]]));
        let (datagram, rest) = self.rest.split_at(HEADER + length);
        self.rest = rest;
        Some(datagram)
    }
}
