//! The same two machines as the proved end, in plain Rust (documents 01 and 03).
//!
//! It is the independent machine of the trials and the yardstick for speed. It was written from the documents and
//! not from the proved code, and keeps its state in its own way: what arrived early is a list of stretches, not marks.
//!
//! ```
//! let mut gate = yardstick::End::open(7, 50).unwrap();
//! let mut room = yardstick::End::open(7, 50).unwrap();
//! room.give(b"GATE 3 TO 40 CM\n");
//! for datagram in room.tick() {
//!     gate.datagram(datagram).unwrap();
//! }
//! let mut bytes = [0; 64];
//! let taken = gate.take(&mut bytes);
//! assert_eq!(&bytes[..taken.count], b"GATE 3 TO 40 CM\n");
//! ```

#![forbid(unsafe_code)]

pub mod fault;
mod header;
mod output;
mod receiving;
mod refusal;
mod ring;
mod sending;
#[cfg(test)]
mod tests;
mod window;

pub use header::{HEADER, Header, Kind, PAYLOAD};
pub use output::Datagrams;
pub use refusal::Refusal;
pub use ring::RING;

use output::{OUTPUT, Output};
use receiving::Receiving;
use sending::Sending;
use window::Window;

/// Numbers, ticks and positions that come to this end all sending.
pub const MOST: u64 = 1 << 62;
/// The largest resend interval.
const LONGEST: u64 = 65_535;

/// What take answers.
#[derive(Clone, Copy, Debug, PartialEq, Eq)]
pub struct Taken {
    /// Bytes handed up.
    pub count: usize,
    /// Whether the END has been reached.
    pub ended: bool,
}

/// What trials may see of an end, to aim at its edges.
#[derive(Clone, Copy, Debug)]
pub struct State {
    /// The highest number accepted.
    pub highest: u64,
    /// Bytes that the host has taken.
    pub taken: u64,
    /// The lowest byte position that isn't here yet.
    pub low: u64,
    /// The position after the highest byte that has arrived.
    pub high: u64,
    /// The END's position, once known.
    pub end: Option<u64>,
    /// Bytes that give accepted.
    pub given: u64,
    /// Where the oldest kept segment starts.
    pub acked: u64,
    /// The next position to be sent.
    pub next: u64,
    /// How far the peer accepts bytes.
    pub limit: u64,
}

/// One end of a connection.
pub type End = EndWith<{ fault::NONE }>;

/// An end with a planted fault (see [`fault`]).
#[derive(Clone)]
pub struct EndWith<const FAULT: u8> {
    epoch: u64,
    interval: u64,
    /// Ticks since open.
    clock: u64,
    /// The last number used.
    number: u64,
    /// An ACK is owed.
    due: bool,
    /// What the last ACK said, for a fault.
    said: Option<(u64, u32)>,
    window: Window,
    sending: Sending,
    receiving: Receiving,
    output: Box<[u8]>,
}

impl<const FAULT: u8> EndWith<FAULT> {
    /// A fresh end; refuses with 10.
    pub fn open(epoch: u64, interval: u64) -> Result<Self, Refusal> {
        if interval == 0 || interval > LONGEST {
            return Err(Refusal(10));
        }
        Ok(EndWith {
            epoch,
            interval,
            clock: 0,
            number: 0,
            due: false,
            said: None,
            window: Window::new(),
            sending: Sending::new(),
            receiving: Receiving::new(),
            output: vec![0; OUTPUT].into_boxed_slice(),
        })
    }

    /// Takes as many of the bytes as there is room for, and answers how many.
    pub fn give(&mut self, bytes: &[u8]) -> usize {
        self.sending.give(bytes)
    }

    /// No more bytes will be given.
    pub fn finish(&mut self) {
        self.sending.finish();
    }

    /// One datagram from the network; refuses with 1 to 9, and then nothing has changed.
    pub fn datagram(&mut self, bytes: &[u8]) -> Result<(), Refusal> {
        let header = Header::read(bytes)?;
        if header.epoch != self.epoch {
            return Err(Refusal(3));
        }
        self.window.judge::<FAULT>(header.number)?;
        if FAULT == fault::WINDOW_MOVED_FIRST {
            self.window.accept(header.number);
        }
        match header.kind {
            Kind::Data => {
                self.receiving.judge(&header)?;
                self.receiving.keep::<FAULT>(&header, &bytes[HEADER..]);
                self.due = true;
            }
            Kind::Ack => {
                self.sending.judge(&header)?;
                self.sending.acknowledge(&header);
            }
            Kind::Probe => self.due = true,
        }
        self.window.accept(header.number);
        Ok(())
    }

    /// Hands up bytes that are next in the peer's stream, as many as `out` holds.
    pub fn take(&mut self, out: &mut [u8]) -> Taken {
        self.receiving.take::<FAULT>(out)
    }

    /// The clock moves on by one; answers the datagrams to be sent now.
    pub fn tick(&mut self) -> Datagrams<'_> {
        if self.clock < MOST {
            self.clock += 1;
        }
        if self.clock >= MOST || self.sending.next() >= MOST {
            return Datagrams::new(&[]);
        }
        let (epoch, number) = (self.epoch, self.number);
        let mut out = Output { bytes: &mut self.output, used: 0, sent: 0, epoch, number };
        if self.due && out.room() {
            let position = self.receiving.position::<FAULT>();
            let credit = self.receiving.credit(position);
            if FAULT != fault::ANSWERED_ONCE || self.said != Some((position, credit)) {
                out.send(Kind::Ack, false, 0, position, credit);
                self.said = Some((position, credit));
            }
            self.due = false;
        }
        self.sending.tick::<FAULT>(self.clock, self.interval, &mut out);
        self.number = out.number;
        let used = out.used;
        Datagrams::new(&self.output[..used])
    }

    /// What trials may see.
    pub fn state(&self) -> State {
        State {
            highest: self.window.highest(),
            taken: self.receiving.taken(),
            low: self.receiving.low(),
            high: self.receiving.high(),
            end: self.receiving.end(),
            given: self.sending.given(),
            acked: self.sending.acked(),
            next: self.sending.next(),
            limit: self.sending.limit(),
        }
    }
}
