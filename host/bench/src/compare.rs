//! Both machines in turn, on the same bytes, in buffers that are made and cleared before the clock starts.

use std::time::{Duration, Instant};

use drill::machine::Machine;
use drill::random::Random;
use sluicestream::End as Rattle;
use yardstick::{End as Rust, PAYLOAD};

use crate::calls::{self, Case};
use crate::transfer::{self, Off, Parts, Sent};

/// Rows of calls are so short that they are run this many times as often.
const CALLS: usize = 5;
/// Bytes of the transfers that show how time grows, and their rounds.
const GROWTH: [(usize, usize); 3] = [(1_000_000, 15), (10_000_000, 5), (100_000_000, 3)];

/// The same figure of every round.
#[derive(Clone, Default)]
pub struct Samples(Vec<Duration>);

impl Samples {
    pub fn median(&self) -> Duration {
        let mut sorted = self.0.clone();
        sorted.sort();
        sorted[sorted.len() / 2]
    }

    pub fn fastest(&self) -> Duration {
        self.0.iter().min().copied().unwrap_or_default()
    }
}

/// One figure of both machines.
#[derive(Clone, Default)]
pub struct Pair {
    pub rattle: Samples,
    pub rust: Samples,
}

impl Pair {
    /// The median of what each round's two figures are to each other: where all is slow for a while, both are.
    pub fn ratio(&self) -> f64 {
        let rounds = self.rattle.0.iter().zip(&self.rust.0);
        let mut ratios: Vec<f64> = rounds.map(|(rattle, rust)| rattle.as_secs_f64() / rust.as_secs_f64()).collect();
        ratios.sort_by(f64::total_cmp);
        ratios[ratios.len() / 2]
    }
}

/// What transfers took: the whole, each part, and the floor.
#[derive(Default)]
pub struct Whole {
    pub whole: Pair,
    pub parts: [Pair; 4],
    pub floor: Samples,
    pub sent: Sent,
}

/// What a row of calls took.
pub struct Row {
    pub name: &'static str,
    pub count: usize,
    pub took: Pair,
}

/// The bytes that are sent, and room for them at the other side.
struct Buffers {
    text: Vec<u8>,
    room: Vec<u8>,
}

impl Buffers {
    fn new(bytes: usize) -> Buffers {
        let mut text = vec![0; bytes];
        Random::new(1).fill(&mut text);
        Buffers { text, room: vec![0xff; bytes] }
    }

    /// One transfer; an error where other bytes come than were sent.
    fn whole<M: Machine>(&mut self) -> Result<(Duration, Sent), String> {
        let ends = transfer::ends::<M>()?;
        self.room.fill(0xff);
        let start = Instant::now();
        let sent = transfer::run(ends, &self.text, &mut self.room, &mut Off);
        let took = start.elapsed();
        if self.room == self.text { Ok((took, sent)) } else { Err(format!("{} delivers other bytes", M::NAME)) }
    }

    /// One transfer, by parts.
    fn parts<M: Machine>(&mut self) -> Result<[Duration; 4], String> {
        let ends = transfer::ends::<M>()?;
        self.room.fill(0xff);
        let mut parts = Parts::default();
        transfer::run(ends, &self.text, &mut self.room, &mut parts);
        Ok(parts.0)
    }

    /// Whole transfers on both machines, each first in every second round; an error where they differ in more than time.
    fn round(&mut self, whole: &mut Pair) -> Result<Sent, String> {
        let ((rattle, sent), (rust, same)) = if whole.rust.0.len() % 2 == 0 {
            (self.whole::<Rattle>()?, self.whole::<Rust>()?)
        } else {
            let rust = self.whole::<Rust>()?;
            (self.whole::<Rattle>()?, rust)
        };
        whole.rattle.0.push(rattle);
        whole.rust.0.push(rust);
        if sent == same { Ok(sent) } else { Err(format!("rattle sent {sent:?}, rust {same:?}")) }
    }

    fn floor(&mut self) -> Duration {
        self.room.fill(0xff);
        transfer::floor(&self.text, &mut self.room)
    }
}

/// Transfers of so many bytes.
pub fn transfers(bytes: usize, rounds: usize) -> Result<Whole, String> {
    let mut buffers = Buffers::new(bytes);
    let mut all = Whole::default();
    for _ in 0..rounds {
        all.sent = buffers.round(&mut all.whole)?;
        for (part, took) in all.parts.iter_mut().zip(buffers.parts::<Rattle>()?) {
            part.rattle.0.push(took);
        }
        for (part, took) in all.parts.iter_mut().zip(buffers.parts::<Rust>()?) {
            part.rust.0.push(took);
        }
        all.floor.0.push(buffers.floor());
    }
    Ok(all)
}

/// Every row of calls.
pub fn calls(rounds: usize) -> Result<Vec<Row>, String> {
    calls::all().iter().map(|case| row(case, rounds * CALLS)).collect()
}

fn row(case: &Case, rounds: usize) -> Result<Row, String> {
    let mut took = Pair::default();
    for _ in 0..rounds {
        took.rattle.0.push(time::<Rattle>(case)?);
        took.rust.0.push(time::<Rust>(case)?);
    }
    Ok(Row { name: case.name, count: case.count(), took })
}

/// What a row of calls takes.
fn time<M: Machine>(case: &Case) -> Result<Duration, String> {
    let mut end = case.prepare::<M>()?;
    let start = Instant::now();
    case.run(&mut end)?;
    Ok(start.elapsed())
}

/// Whole transfers of 1, 10 and 100 million bytes.
pub fn growth() -> Result<Vec<(usize, Whole)>, String> {
    GROWTH.into_iter().map(|(bytes, rounds)| Ok((bytes, wholes(bytes, rounds)?))).collect()
}

/// Transfers without their parts.
fn wholes(bytes: usize, rounds: usize) -> Result<Whole, String> {
    let mut buffers = Buffers::new(bytes);
    let mut all = Whole::default();
    for _ in 0..rounds {
        all.sent = buffers.round(&mut all.whole)?;
        all.floor.0.push(buffers.floor());
    }
    Ok(all)
}

/// One transfer on one machine, or all before it, and how many segments it has.
pub fn transfer_once<M: Machine>(bytes: usize, before: bool) -> Result<usize, String> {
    let mut buffers = Buffers::new(bytes);
    let ends = transfer::ends::<M>()?;
    if !before {
        transfer::run(ends, &buffers.text, &mut buffers.room, &mut Off);
    }
    Ok(bytes.div_ceil(PAYLOAD))
}

/// One row of calls on one machine, or all before it, and how many calls it has.
pub fn calls_once<M: Machine>(case: &Case, before: bool) -> Result<usize, String> {
    let mut end = case.prepare::<M>()?;
    if !before {
        case.run(&mut end)?;
    }
    Ok(case.count())
}
