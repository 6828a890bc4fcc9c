//! Two ends over a network that does what it likes (03, section 1).

use std::rc::Rc;

use super::Seeds;
use crate::host::{Host, Pace};
use crate::machine::Machine;
use crate::network::Wild;
use crate::random::Random;
use crate::run::{Plan, Run};

/// What came of a run.
#[derive(Clone, Debug, Default)]
pub struct Outcome {
    ticks: u64,
    datagrams: u64,
    taken: u64,
    resent: u64,
    probes: u64,
    /// 3, 5 and 6 are the only refusals that an honest network can cause.
    refused: [u64; 14],
    /// Both streams came through, END included.
    done: bool,
    /// The largest number of times that a ring went round.
    rounds: u64,
}

/// One connection after another of the same pair of ends; the later ones meet the datagrams of the earlier.
pub fn trial<M: Machine + Clone>(seed: u64) -> Result<[Outcome; 3], String> {
    let mut random = Random::new(seed);
    let mut earlier = Vec::new();
    let mut one = || one::<M>(&mut random, seed, &mut earlier);
    Ok([one()?, one()?, one()?])
}

/// One connection; what it has sent is added to `earlier`.
fn one<M: Machine + Clone>(random: &mut Random, seed: u64, earlier: &mut Vec<Rc<[u8]>>) -> Result<Outcome, String> {
    let epoch = random.bits();
    let network = Wild {
        random: Random::new(random.bits()),
        lose: random.pick(&[0.0, 0.02, 0.1, 0.3, 0.6]),
        repeat: random.pick(&[0.0, 0.05, 0.3, 0.6]),
        delay: (1, random.pick(&[1, 2, 5, 20, 40, 200])),
    };
    let within = network.delay.1;
    let plan = Plan {
        seed,
        epoch,
        interval: random.pick(&[1, 3, 10, 30, 60]),
        hosts: [host(random), host(random)],
        digs: random.pick(&[0, 5, 50]),
        earlier: earlier.clone(),
        bounds: None,
    };
    let described = format!("{:?}, {network:?}", plan.hosts);
    let mut run = Run::<M, Wild>::new(plan, network, within)?;
    while !run.done() && run.now < 3_000 {
        run.step().map_err(|why| format!("epoch {epoch}: {why}\n  {described}"))?;
    }
    // After the end of both streams nothing more may be accepted that was accepted before.
    for _ in 0..50 {
        run.step().map_err(|why| format!("epoch {epoch}, afterwards: {why}\n  {described}"))?;
    }
    earlier.extend(run.history.iter().flatten().step_by(7).cloned());
    let mut refused = [0; 14];
    for seen in &run.seen {
        (0..14).for_each(|k| refused[k] += seen.refused[k]);
    }
    Ok(Outcome {
        ticks: run.now,
        datagrams: run.seen.iter().map(|seen| seen.sent).sum(),
        taken: run.flows.iter().map(|flow| flow.taken).sum(),
        resent: run.flows.iter().map(|flow| flow.resent).sum(),
        probes: run.seen.iter().map(|seen| seen.probes).sum(),
        refused,
        done: run.done(),
        rounds: run.flows.iter().map(|flow| flow.taken / 65_536).max().unwrap_or(0),
    })
}

/// Any host: nothing to say or much, at once or in drops, taking at once or slowly.
fn host(random: &mut Random) -> Host {
    let slow = Pace::Some(random.between(2, 60), random.pick(&[1, 100, 1_024, 3_000, 20_000]));
    let slow_too = Pace::Some(random.between(2, 60), random.pick(&[1, 700, 5_000, 70_000]));
    Host {
        offers: random.pick(&[0, 1, 1_000, 1_024, 1_025, 65_536, 65_537, 200_000, 400_000]),
        gives: random.pick(&[Pace::All, Pace::All, slow]),
        takes: random.pick(&[Pace::All, Pace::All, slow_too]),
        finishes: random.chance(90),
        hesitates: random.pick(&[0, 0, 1, 40]),
    }
}

/// All seeds, summed up.
pub fn report<M: Machine + Clone>(name: &'static str, seeds: Seeds) -> Result<String, String> {
    let runs = seeds.run(name, trial::<M>)?.concat();
    let sum = |field: fn(&Outcome) -> u64| runs.iter().map(field).sum::<u64>();
    let most = |field: fn(&Outcome) -> u64| runs.iter().map(field).max().unwrap_or(0);
    Ok(format!(
        "{} connections, {} of them with both ENDs reported and acknowledged\n\
         {} ticks, {} datagrams, {} resent, {} PROBEs, {} bytes taken, a ring went round {} times\n\
         refused by number: 3: {} 5: {} 6: {}, and nothing else",
        runs.len(),
        sum(|run| u64::from(run.done)),
        sum(|run| run.ticks),
        sum(|run| run.datagrams),
        sum(|run| run.resent),
        sum(|run| run.probes),
        sum(|run| run.taken),
        most(|run| run.rounds),
        sum(|run| run.refused[3]),
        sum(|run| run.refused[5]),
        sum(|run| run.refused[6]),
    ))
}
