//! A transfer through two ends in one process, with a network that loses every 50th datagram.

use std::hint::black_box;
use std::time::{Duration, Instant};

use drill::machine::Machine;

/// Every 50th datagram is lost, counted over both directions.
pub const LOSES: u64 = 50;
/// The resend interval R.
pub const INTERVAL: u64 = 4;
/// The calls that are timed apart.
pub const PARTS: [&str; 4] = ["give", "tick", "datagram", "take"];
/// Bytes that are copied in one piece for the floor: a ring.
const PIECE: usize = 65_536;

/// What a transfer sent: the same for both machines.
#[derive(Clone, Copy, Debug, Default, PartialEq, Eq)]
pub struct Sent {
    pub datagrams: u64,
    /// Ticks of each end.
    pub ticks: u64,
}

/// Where the times of the parts go, if they are asked for.
pub trait Meter {
    fn time<T>(&mut self, part: usize, call: impl FnOnce() -> T) -> T;
}

/// Measures nothing.
pub struct Off;

impl Meter for Off {
    fn time<T>(&mut self, _: usize, call: impl FnOnce() -> T) -> T {
        call()
    }
}

/// The time of each of [`PARTS`]. It is measured in a run of its own, as measuring takes time.
#[derive(Default)]
pub struct Parts(pub [Duration; 4]);

impl Meter for Parts {
    fn time<T>(&mut self, part: usize, call: impl FnOnce() -> T) -> T {
        let start = Instant::now();
        let answer = call();
        self.0[part] += start.elapsed();
        answer
    }
}

/// Two fresh ends.
pub fn ends<M: Machine>() -> Result<(M, M), String> {
    let open = || M::open(7, INTERVAL).map_err(|k| format!("{} refuses open with {k}", M::NAME));
    Ok((open()?, open()?))
}

/// Sends `text` from one end to the other, where it comes to `room`.
pub fn run<M: Machine>((mut from, mut to): (M, M), text: &[u8], room: &mut [u8], meter: &mut impl Meter) -> Sent {
    let mut sent = Sent::default();
    let (mut given, mut taken, mut ended) = (0, 0, false);
    while !ended {
        sent.ticks += 1;
        given += meter.time(0, || from.give(&text[given..]));
        if given == text.len() {
            from.finish();
        }
        let leaving = meter.time(1, || from.tick());
        meter.time(2, || carry(leaving, &mut to, &mut sent.datagrams));
        let (count, end) = meter.time(3, || to.take(&mut room[taken..]));
        taken += count;
        ended = end;
        let leaving = meter.time(1, || to.tick());
        meter.time(2, || carry(leaving, &mut from, &mut sent.datagrams));
    }
    sent
}

/// Hands the datagrams of one tick over, save those that are lost.
fn carry<'a, M: Machine>(leaving: impl Iterator<Item = &'a [u8]>, to: &mut M, datagrams: &mut u64) {
    for datagram in leaving {
        *datagrams += 1;
        if *datagrams % LOSES != 0 {
            // A refusal would show in the bytes.
            let _ = to.datagram(datagram);
        }
    }
}

/// The floor: all bytes copied four times, from the host to a ring, to the network, to a ring and to the host.
pub fn floor(text: &[u8], room: &mut [u8]) -> Duration {
    let mut stops = [const { [0; PIECE] }; 3];
    let start = Instant::now();
    for (from, to) in text.chunks(PIECE).zip(room.chunks_mut(PIECE)) {
        let size = from.len();
        let mut last = from;
        for stop in &mut stops {
            stop[..size].copy_from_slice(last);
            last = &black_box(stop)[..size];
        }
        to.copy_from_slice(last);
    }
    start.elapsed()
}
