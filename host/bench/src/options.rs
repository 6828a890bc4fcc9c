//! The options of the bench.

use crate::calls::{self, Case};

/// Bytes of a transfer, where nothing else is asked for.
const BYTES: usize = 10_000_000;
/// Rounds of each machine, where nothing else is asked for.
const ROUNDS: usize = 15;

pub const HELP: &str = "\
bench: the proved end (rattle) beside plain Rust (rust)

  bench [--bytes N] [--rounds N]
      a transfer of N bytes, single calls, and how time grows; N is 10000000, and there are 15 rounds of each machine
  bench --only rattle|rust [--bytes N | --call NAME] [--stop before|after]
      one transfer, or one row of calls, on one machine, untimed: for counting instructions. Prints how many segments
      or calls that is. What is to be counted is what a run that stops after it does more than one that stops before it
  bench --names
      the names of the rows of calls
";

/// What the arguments ask for.
pub enum Wish {
    Help,
    Names,
    Compare(Options),
    Only(Only),
}

/// Both machines, timed.
pub struct Options {
    pub bytes: usize,
    pub rounds: usize,
}

/// One machine, to be counted.
pub struct Only {
    pub rattle: bool,
    /// A row of calls; a transfer where there is none.
    pub call: Option<Case>,
    pub bytes: usize,
    /// Stops before what is to be counted.
    pub before: bool,
}

/// Reads the arguments, or says in a line what is wrong with them.
pub fn read(arguments: impl Iterator<Item = String>) -> Result<Wish, String> {
    let (mut bytes, mut rounds, mut only, mut call, mut stop) = (None, None, None, None, None);
    let mut rest = arguments;
    while let Some(name) = rest.next() {
        match name.as_str() {
            "--help" | "-h" => return Ok(Wish::Help),
            "--names" => return Ok(Wish::Names),
            "--bytes" => bytes = Some(number(&name, rest.next())?),
            "--rounds" => rounds = Some(number(&name, rest.next())?),
            "--only" => only = Some(choice(&name, rest.next(), ["rattle", "rust"])?),
            "--call" => call = Some(case(rest.next())?),
            "--stop" => stop = Some(choice(&name, rest.next(), ["before", "after"])?),
            _ => return Err(format!("unknown option {name}")),
        }
    }
    match only {
        Some(_) if rounds.is_some() => Err("--rounds is not for --only".into()),
        Some(_) if bytes.is_some() && call.is_some() => Err("--bytes is not for --call".into()),
        Some(rattle) => {
            Ok(Wish::Only(Only { rattle, call, bytes: bytes.unwrap_or(BYTES), before: stop == Some(true) }))
        }
        None if call.is_some() || stop.is_some() => Err("--call and --stop are for --only".into()),
        None => Ok(Wish::Compare(Options { bytes: bytes.unwrap_or(BYTES), rounds: rounds.unwrap_or(ROUNDS) })),
    }
}

/// A number of 1 or more.
fn number(name: &str, value: Option<String>) -> Result<usize, String> {
    let value = value.ok_or_else(|| format!("{name} needs a number"))?;
    let number = value.parse().ok().filter(|&number| number > 0);
    number.ok_or_else(|| format!("{name} {value}: not a number of 1 or more"))
}

/// Whether it is the first of two words.
fn choice(name: &str, value: Option<String>, [first, second]: [&str; 2]) -> Result<bool, String> {
    match value {
        Some(value) if value == first => Ok(true),
        Some(value) if value == second => Ok(false),
        Some(value) => Err(format!("{name} {value}: not {first} or {second}")),
        None => Err(format!("{name} needs {first} or {second}")),
    }
}

/// The row of calls with this name.
fn case(value: Option<String>) -> Result<Case, String> {
    let name = value.ok_or("--call needs a name")?;
    let case = calls::all().into_iter().find(|case| case.name == name);
    case.ok_or_else(|| format!("--call {name}: not one of `bench --names`"))
}
