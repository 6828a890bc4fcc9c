//! The subcommands, and what they share: every failure is one line and a status that is not 0.

mod drill;
mod options;
mod pipe;
mod relay;
mod sockets;

use std::io::Write;
use std::process::ExitCode;

/// Why a command ends early.
pub enum Stop {
    /// The arguments are wrong: status 2.
    Usage(String),
    /// Something went wrong on the way: status 1.
    Failed(String),
}

const HELP: &str = "\
sluice: a reliable stream of bytes over datagrams, both ways

  sluice pipe    joins standard input and output of two hosts by one connection over UDP
  sluice relay   is a bad network between two pipes: loses, repeats, delays and swaps datagrams
  sluice drill   runs two ends in virtual time over a bad network; runs the trials

`sluice COMMAND --help` tells the options of each.
";

/// Runs the command that the arguments ask for.
pub fn main(mut arguments: Vec<String>) -> ExitCode {
    let name = if arguments.is_empty() { String::new() } else { arguments.remove(0) };
    type Command = (&'static str, fn(Vec<String>) -> Result<(), Stop>);
    let (help, command): Command = match name.as_str() {
        "pipe" => (pipe::HELP, pipe::main),
        "relay" => (relay::HELP, relay::main),
        "drill" => (drill::HELP, drill::main),
        "--help" | "-h" | "help" => {
            say(HELP);
            return ExitCode::SUCCESS;
        }
        "" => return fail("sluice: which command? pipe, relay or drill; see sluice --help", 2),
        other => return fail(&format!("sluice: unknown command {other}; see sluice --help"), 2),
    };
    if arguments.iter().any(|argument| argument == "--help" || argument == "-h") {
        say(help);
        return ExitCode::SUCCESS;
    }
    match command(arguments) {
        Ok(()) => ExitCode::SUCCESS,
        Err(Stop::Usage(why)) => fail(&format!("sluice {name}: {why}; see sluice {name} --help"), 2),
        Err(Stop::Failed(why)) => fail(&format!("sluice {name}: {why}"), 1),
    }
}

/// Writes to standard output; whoever reads it may have gone.
fn say(text: &str) {
    let _ = std::io::stdout().write_all(text.as_bytes());
}

fn fail(line: &str, status: u8) -> ExitCode {
    let _ = writeln!(std::io::stderr(), "{line}");
    ExitCode::from(status)
}
