//! Fair networks that lose and delay as much as they may (03, sections 2 and 3).

use std::fmt::Write;

use super::Seeds;
use crate::flow::Bounds;
use crate::host::{Host, Pace};
use crate::machine::Machine;
use crate::network::{Fair, Manner};
use crate::random::Random;
use crate::run::{Plan, Run};

/// L, D and R: the rows of document 03's table first, then the edges and some between.
pub const ROWS: [(u64, u64, u64); 14] = [
    (1, 4, 10),
    (3, 20, 50),
    (8, 32, 100),
    (1, 1, 1),
    (1, 32, 1),
    (2, 1, 1),
    (2, 32, 7),
    (2, 8, 10),
    (3, 8, 10),
    (3, 7, 3),
    (3, 2, 10),
    (4, 3, 5),
    (5, 32, 1),
    (8, 1, 40),
];

/// The worst of some runs.
#[derive(Clone, Copy, Debug, Default)]
pub struct Worst {
    /// Ticks to hand.
    pub hand: u64,
    /// Ticks to acknowledge.
    pub acknowledged: u64,
    /// Ticks from a take to a higher limit.
    pub limit: u64,
}

/// One run; each segment is held to both bounds, and each wait for room to the bound for it.
pub fn trial<M: Machine + Clone>((l, d, r): (u64, u64, u64), manner: Manner, seed: u64) -> Result<Worst, String> {
    let bounds = Bounds::new(l, d, r);
    let mut random = Random::new(seed ^ (l << 40 | d << 20 | r));
    let mut worst = Worst::default();
    for hosts in plans(&mut random, bounds) {
        let patience =
            100 * (bounds.acknowledged + 100) * hosts.iter().map(|host| host.offers / 1_024 + 1).sum::<u64>();
        let plan = Plan {
            seed,
            epoch: random.bits(),
            interval: r,
            hosts,
            digs: random.pick(&[0, 10]),
            earlier: Vec::new(),
            bounds: Some(bounds),
        };
        let network = Fair::new(l, d, manner, Random::new(random.bits()));
        let mut run = Run::<M, Fair>::new(plan, network, d)?;
        let context = |why| format!("L {l}, D {d}, R {r}, {manner:?}, {hosts:?}: {why}");
        while !run.done() {
            run.step().map_err(context)?;
            if run.now > patience {
                return Err(context(format!("not done after {patience} ticks")));
            }
        }
        if run.lost_in_row >= l {
            return Err(context(format!("the network was not fair: {} lost in a row", run.lost_in_row)));
        }
        for flow in &run.flows {
            worst.hand = worst.hand.max(flow.worst.hand);
            worst.acknowledged = worst.acknowledged.max(flow.worst.acknowledged);
            worst.limit = worst.limit.max(flow.worst_wait);
        }
    }
    Ok(worst)
}

/// Windows of 1, 3 and 16 segments and more, in one direction and in both, and hosts that take slowly.
fn plans(random: &mut Random, bounds: Bounds) -> Vec<[Host; 2]> {
    let eager = Host::eager;
    let period = random.between(bounds.acknowledged / 2 + 1, bounds.acknowledged * 2);
    let slow = Host { takes: Pace::Every(period, random.pick(&[1_500, 5_000, 40_000])), ..eager(0) };
    let uneven = Host { takes: Pace::Some(random.between(5, 50), random.pick(&[500, 3_000, 40_000])), ..eager(0) };
    vec![
        [eager(1_024), eager(0)],
        [eager(3 * 1_024), eager(100)],
        [eager(16 * 1_024), eager(16 * 1_024)],
        [eager(random.between(1, 70_000)), Host { gives: Pace::Some(20, 300), ..eager(3_000) }],
        [eager(70_000), slow],
        [eager(100_000), uneven],
    ]
}

/// All rows, worst case beside the bound.
pub fn report<M: Machine + Clone>(name: &'static str, seeds: Seeds) -> Result<String, String> {
    let mut text =
        String::from("   L   D    R    in hand: worst  bound    acknowledged: worst  bound    new limit: worst  bound");
    for row @ (l, d, r) in ROWS {
        let runs = seeds.run(name, |seed| {
            let manners = [Manner::Strict, Manner::Cunning, Manner::Moody];
            manners.into_iter().map(|manner| trial::<M>(row, manner, seed)).collect::<Result<Vec<_>, _>>()
        })?;
        let worst = |field: fn(&Worst) -> u64| runs.iter().flatten().map(field).max().unwrap_or(0);
        let bounds = Bounds::new(l, d, r);
        write!(
            text,
            "\n{l:4}{d:4}{r:5}{:18}{:7}{:24}{:7}{:20}{:7}",
            worst(|run| run.hand),
            bounds.hand,
            worst(|run| run.acknowledged),
            bounds.acknowledged,
            worst(|run| run.limit),
            bounds.acknowledged,
        )
        .expect("a string takes all");
    }
    Ok(text)
}
