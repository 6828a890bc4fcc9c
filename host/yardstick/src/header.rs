//! A datagram's form (01, section 2), and refusals 1 and 2.

use crate::refusal::Refusal;

/// Bytes of a header.
pub const HEADER: usize = 32;
/// The largest payload.
pub const PAYLOAD: usize = 1_024;

/// What a datagram is.
#[derive(Clone, Copy, Debug, PartialEq, Eq)]
pub enum Kind {
    /// Bytes of the stream, its END, or both.
    Data,
    /// What has arrived, and how far bytes will be accepted.
    Ack,
    /// Asks for an ACK.
    Probe,
}

/// The fields of a datagram before its payload.
#[derive(Clone, Copy, Debug, PartialEq, Eq)]
pub struct Header {
    /// DATA, ACK or PROBE.
    pub kind: Kind,
    /// The stream ends right after the payload.
    pub end: bool,
    /// Bytes of payload.
    pub length: usize,
    /// The connection's epoch.
    pub epoch: u64,
    /// Each datagram of an end has the next one, from 1 on.
    pub number: u64,
    /// Where the payload stands, what is missing, or what is unsent.
    pub position: u64,
    /// How far beyond `position` bytes will be accepted.
    pub credit: u32,
}

impl Header {
    /// Reads a whole datagram's header; refuses with 1 or 2.
    #[inline]
    pub fn read(bytes: &[u8]) -> Result<Header, Refusal> {
        let (head, payload) = bytes.split_first_chunk::<HEADER>().ok_or(Refusal(1))?;
        let length = usize::from(u16::from_be_bytes([head[2], head[3]]));
        if payload.len() != length {
            return Err(Refusal(1));
        }
        let flags = head[1];
        let credit = u32::from_be_bytes(part(head, 28));
        let (kind, allowed) = match head[0] {
            1 => (Kind::Data, flags <= 1 && length <= PAYLOAD && credit == 0 && (length > 0 || flags == 1)),
            2 => (Kind::Ack, flags == 0 && length == 0),
            3 => (Kind::Probe, flags == 0 && length == 0 && credit == 0),
            _ => return Err(Refusal(2)),
        };
        if !allowed {
            return Err(Refusal(2));
        }
        Ok(Header {
            kind,
            end: flags == 1,
            length,
            epoch: u64::from_be_bytes(part(head, 4)),
            number: u64::from_be_bytes(part(head, 12)),
            position: u64::from_be_bytes(part(head, 20)),
            credit,
        })
    }

    /// Writes the header to the first 32 bytes of `out`.
    #[inline]
    pub fn write(&self, out: &mut [u8]) {
        let out = out.first_chunk_mut::<HEADER>().expect("room for a header");
        out[0] = match self.kind {
            Kind::Data => 1,
            Kind::Ack => 2,
            Kind::Probe => 3,
        };
        out[1] = u8::from(self.end);
        out[2..4].copy_from_slice(&(self.length as u16).to_be_bytes());
        out[4..12].copy_from_slice(&self.epoch.to_be_bytes());
        out[12..20].copy_from_slice(&self.number.to_be_bytes());
        out[20..28].copy_from_slice(&self.position.to_be_bytes());
        out[28..32].copy_from_slice(&self.credit.to_be_bytes());
    }

    /// The position after the last one that a DATA carries, its END counted.
    pub fn to(&self) -> u64 {
        self.position + self.length as u64 + u64::from(self.end)
    }
}

/// `N` bytes of the header from `at` on.
#[inline]
fn part<const N: usize>(head: &[u8; HEADER], at: usize) -> [u8; N] {
    let mut bytes = [0; N];
    bytes.copy_from_slice(&head[at..at + N]);
    bytes
}
