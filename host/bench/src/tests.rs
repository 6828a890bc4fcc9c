//! A small run of everything: no figure can fail it.

use crate::compare;
use crate::options;

#[test]
fn both_machines_deliver_the_same() {
    println!("checks: a small transfer delivers every byte on both machines, with the same datagrams and ticks");
    let all = compare::transfers(300_000, 1).expect("the machines differ in nothing but time");
    println!("{:?}", all.sent);
}

#[test]
fn every_row_of_calls_runs() {
    println!("checks: both machines accept each row of calls, and their ticks send what is expected");
    for row in compare::calls(1).expect("the machines differ in nothing but time") {
        println!("{}: {} calls", row.name, row.count);
    }
}

#[test]
fn wrong_options_get_a_line() {
    println!("checks: each wrong option is named in one line");
    let wrong = [
        ("--rounds 0", "--rounds 0: not a number of 1 or more"),
        ("--bytes", "--bytes needs a number"),
        ("--only c", "--only c: not rattle or rust"),
        ("--only rust --rounds 3", "--rounds is not for --only"),
        ("--stop after", "--call and --stop are for --only"),
        ("--only rust --call nothing", "--call nothing: not one of `bench --names`"),
        ("7", "unknown option 7"),
    ];
    for (arguments, line) in wrong {
        let read = options::read(arguments.split(' ').map(String::from));
        assert_eq!(read.err().as_deref(), Some(line), "{arguments}");
    }
}
