//! The figures in words.

use std::env;
use std::time::Duration;

use yardstick::PAYLOAD;

use crate::compare::{Pair, Row, Samples, Whole};
use crate::options::Options;
use crate::transfer::{INTERVAL, LOSES, PARTS};

/// What is measured, and where.
pub fn setup(options: &Options, whole: &Whole) {
    let machine = env::var("SLUICE_EMULATOR").map_or("native".into(), |emulator| format!("emulated by {emulator}"));
    println!("{} bytes in segments of {PAYLOAD} between two ends in one process, R = {INTERVAL}", options.bytes);
    println!("every {LOSES}th datagram lost, counted over both directions");
    println!("{} datagrams, {} ticks of each end", whole.sent.datagrams, whole.sent.ticks);
    println!(
        "{} rounds of each machine in turn: the median, the fastest in brackets, and the median of the rounds' ratios",
        options.rounds
    );
    println!("x86-64 code, {machine}");
}

/// A transfer, whole and by part.
pub fn transfers(bytes: usize, all: &Whole) {
    heading("a transfer, ms");
    line("whole", &all.whole, millis);
    for (name, part) in PARTS.iter().zip(&all.parts) {
        line(name, part, millis);
    }
    let rate = |samples: &Samples| bytes as f64 / 1e6 / samples.median().as_secs_f64();
    println!("million bytes a second {:>20.0} {:>20.0}", rate(&all.whole.rattle), rate(&all.whole.rust));
    println!("copied four times, ms  {:>20}", both(&all.floor, &millis));
}

/// Single calls.
pub fn calls(rows: &[Row]) {
    heading("one call, ns");
    for row in rows {
        line(row.name, &row.took, |took| took.as_secs_f64() * 1e9 / row.count as f64);
    }
}

/// How time grows.
pub fn growth(sizes: &[(usize, Whole)]) {
    heading("ms for a million bytes");
    for (bytes, all) in sizes {
        let each = |took: Duration| millis(took) * 1e6 / *bytes as f64;
        line(&format!("of {} million", bytes / 1_000_000), &all.whole, each);
        println!("  copied four times    {:>20}", both(&all.floor, &each));
    }
}

/// The last line.
pub fn ratio(all: &Whole) {
    println!();
    println!("ratio: {:.2} (rattle / rust)", all.whole.ratio());
}

fn heading(what: &str) {
    println!();
    println!("{what:<22} {:>20} {:>20} {:>7}", "rattle", "rust", "ratio");
}

fn line(name: &str, pair: &Pair, unit: impl Fn(Duration) -> f64) {
    println!("{name:<22} {:>20} {:>20} {:>7.2}", both(&pair.rattle, &unit), both(&pair.rust, &unit), pair.ratio());
}

/// The median, and the fastest in brackets.
fn both(samples: &Samples, unit: &impl Fn(Duration) -> f64) -> String {
    format!("{:.2} ({:.2})", unit(samples.median()), unit(samples.fastest()))
}

fn millis(took: Duration) -> f64 {
    took.as_secs_f64() * 1e3
}
