//! `sluice`: a connection over UDP, a bad network for it, and drills in virtual time.

#![forbid(unsafe_code)]

mod command;

use std::process::ExitCode;

fn main() -> ExitCode {
    command::main(std::env::args().skip(1).collect())
}
