//! The proved end beside the yardstick: a transfer, single calls, and how time grows (docs/SPEED.md). `make bench`.

#![forbid(unsafe_code)]

mod calls;
mod compare;
mod options;
mod report;
#[cfg(test)]
mod tests;
mod transfer;

use std::env;
use std::process::ExitCode;

use drill::machine::Machine;
use options::{Only, Options, Wish};

fn main() -> ExitCode {
    let wish = match options::read(env::args().skip(1)) {
        Ok(wish) => wish,
        Err(why) => {
            eprintln!("bench: {why}; `bench --help` tells the options");
            return ExitCode::from(2);
        }
    };
    let done = match wish {
        Wish::Help => {
            print!("{}", options::HELP);
            Ok(())
        }
        Wish::Names => {
            calls::all().iter().for_each(|case| println!("{}", case.name));
            Ok(())
        }
        Wish::Compare(options) => compare(&options),
        Wish::Only(only) if only.rattle => run_only::<sluicestream::End>(&only),
        Wish::Only(only) => run_only::<yardstick::End>(&only),
    };
    match done {
        Ok(()) => ExitCode::SUCCESS,
        Err(why) => {
            eprintln!("bench: {why}");
            ExitCode::FAILURE
        }
    }
}

/// All figures, side by side; the last line is the ratio of the whole transfer.
fn compare(options: &Options) -> Result<(), String> {
    let whole = compare::transfers(options.bytes, options.rounds)?;
    report::setup(options, &whole);
    report::transfers(options.bytes, &whole);
    report::calls(&compare::calls(options.rounds)?);
    report::growth(&compare::growth()?);
    report::ratio(&whole);
    Ok(())
}

/// What is to be counted, once; prints how many segments or calls it is.
fn run_only<M: Machine>(only: &Only) -> Result<(), String> {
    let count = match &only.call {
        Some(case) => compare::calls_once::<M>(case, only.before)?,
        None => compare::transfer_once::<M>(only.bytes, only.before)?,
    };
    println!("{count}");
    Ok(())
}
