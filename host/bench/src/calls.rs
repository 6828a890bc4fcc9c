//! Single calls: what an end is brought to, and the calls that are then measured in a row.

use std::cell::RefCell;

use drill::machine::Machine;
use yardstick::{HEADER, Header, Kind, PAYLOAD, RING};

const EPOCH: u64 = 7;
/// Segments that a ring holds, and that are kept at most.
const SEGMENTS: u64 = 64;
/// So long an interval that nothing is sent again.
const NEVER: u64 = 65_535;

/// A row of calls on an end that was brought somewhere.
pub struct Case {
    pub name: &'static str,
    /// The resend interval R.
    interval: u64,
    /// Segments that are given first.
    given: u64,
    /// Ticks before the calls.
    ticks: usize,
    /// Datagrams before the calls.
    before: Vec<Vec<u8>>,
    calls: Calls,
}

/// What is measured.
enum Calls {
    /// So many ticks, each of which sends so many datagrams.
    Ticks {
        count: usize,
        sends: usize,
    },
    Datagrams(Vec<Vec<u8>>),
    /// All of these bytes are given.
    Give(Vec<u8>),
    Finish,
    /// As many bytes as there is room for are taken.
    Take(RefCell<Vec<u8>>),
}

impl Case {
    /// How many calls are measured.
    pub fn count(&self) -> usize {
        match &self.calls {
            Calls::Ticks { count, .. } => *count,
            Calls::Datagrams(datagrams) => datagrams.len(),
            Calls::Give(_) | Calls::Finish | Calls::Take(_) => 1,
        }
    }

    /// An end that was brought where the calls begin.
    pub fn prepare<M: Machine>(&self) -> Result<M, String> {
        let mut end = M::open(EPOCH, self.interval).map_err(|k| format!("{} refuses open with {k}", M::NAME))?;
        end.give(&vec![0xa5; self.given as usize * PAYLOAD]);
        (0..self.ticks).for_each(|_| end.tick().for_each(drop));
        if self.before.iter().all(|datagram| end.datagram(datagram).is_ok()) {
            return Ok(end);
        }
        Err(format!("{}: {} refuses what comes before", self.name, M::NAME))
    }

    /// Makes the calls.
    pub fn run<M: Machine>(&self, end: &mut M) -> Result<(), String> {
        let right = match &self.calls {
            Calls::Ticks { count, sends } => (0..*count).all(|_| end.tick().count() == *sends),
            Calls::Datagrams(datagrams) => datagrams.iter().all(|datagram| end.datagram(datagram).is_ok()),
            Calls::Give(bytes) => end.give(bytes) == bytes.len(),
            Calls::Finish => {
                end.finish();
                true
            }
            Calls::Take(room) => end.take(&mut room.borrow_mut()) == (RING, false),
        };
        if right { Ok(()) } else { Err(format!("{}: {} does something else", self.name, M::NAME)) }
    }
}

/// A DATA of 1,024 bytes, or an ACK, with this number; `segment` is its position in segments.
fn datagram(kind: Kind, number: u64, segment: u64) -> Vec<u8> {
    let length = if kind == Kind::Data { PAYLOAD } else { 0 };
    let credit = if kind == Kind::Ack { PAYLOAD as u32 * SEGMENTS as u32 } else { 0 };
    let position = segment * PAYLOAD as u64;
    let mut bytes = vec![0x5a; HEADER + length];
    Header { kind, end: false, length, epoch: EPOCH, number, position, credit }.write(&mut bytes);
    bytes
}

/// Datagrams with the numbers after `number`, one for each segment.
fn row(kind: Kind, number: u64, segments: impl Iterator<Item = u64>) -> Vec<Vec<u8>> {
    segments.zip(number + 1..).map(|(segment, number)| datagram(kind, number, segment)).collect()
}

/// Ticks of an end that has sent `given` segments.
fn ticks(name: &'static str, interval: u64, given: u64, sends: usize) -> Case {
    Case { name, interval, given, ticks: 2, before: Vec::new(), calls: Calls::Ticks { count: 1_000, sends } }
}

/// DATA that come to an end to which others came before.
fn data(name: &'static str, before: impl Iterator<Item = u64>, now: impl Iterator<Item = u64>) -> Case {
    let before = row(Kind::Data, 0, before);
    let calls = Calls::Datagrams(row(Kind::Data, before.len() as u64, now));
    Case { name, interval: NEVER, given: 0, ticks: 0, before, calls }
}

/// One call of an end to which these DATA came.
fn once(name: &'static str, before: impl Iterator<Item = u64>, calls: Calls) -> Case {
    Case { name, interval: NEVER, given: 0, ticks: 0, before: row(Kind::Data, 0, before), calls }
}

/// Every row of calls.
pub fn all() -> Vec<Case> {
    let acks = Calls::Datagrams(row(Kind::Ack, 0, 1..=SEGMENTS));
    let none = || 0..0;
    vec![
        once("give-65536", none(), Calls::Give(vec![0xa5; RING])),
        once("take-65536", 0..SEGMENTS, Calls::Take(RefCell::new(vec![0; RING]))),
        once("finish", none(), Calls::Finish),
        ticks("tick-idle", NEVER, 0, 0),
        ticks("tick-64-kept", NEVER, SEGMENTS, 0),
        ticks("tick-sends-one", 1, 1, 1),
        ticks("tick-sends-32", 1, SEGMENTS, 32),
        Case { name: "ack-drops-one", interval: NEVER, given: SEGMENTS, ticks: 2, before: Vec::new(), calls: acks },
        data("data-in-order", none(), 0..SEGMENTS),
        data("data-beyond-hole", none(), 1..SEGMENTS),
        data("data-closes-hole", (1..SEGMENTS).step_by(2), (0..SEGMENTS).step_by(2)),
        data("data-frees-63", 1..SEGMENTS, 0..1),
        once("data-frees-63-jump", 1..SEGMENTS, Calls::Datagrams(vec![datagram(Kind::Data, 5_000, 0)])),
        data("data-again-low", 0..SEGMENTS, 0..SEGMENTS),
        data("data-again-beyond", 1..SEGMENTS, 1..SEGMENTS),
    ]
}
