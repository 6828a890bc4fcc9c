//! The C header and this crate agree on every constant and every refusal.

use sluicestream::{Refusal, lent};

const HEADER: &str = include_str!("../../../include/sluicestream.h");

/// The number that the header gives a name, by `#define NAME n` or `NAME = n`.
fn number(name: &str) -> usize {
    let found = HEADER.lines().map(str::trim_start).find_map(|line| {
        let rest = line.strip_prefix("#define ").unwrap_or(line).strip_prefix(name)?;
        let rest = rest.strip_prefix(" = ").or(rest.strip_prefix(' '))?;
        rest.split(|c: char| !c.is_ascii_digit()).next()?.parse().ok()
    });
    found.unwrap_or_else(|| panic!("the header has no number for {name}"))
}

#[test]
fn constants_are_those_of_the_header() {
    println!("checks: the sizes of include/sluicestream.h are those of sluicestream::lent");
    assert_eq!(number("SLUICE_TABLE_WORDS"), lent::TABLE_WORDS);
    assert_eq!(number("SLUICE_RING"), lent::RING);
    assert_eq!(number("SLUICE_HEADER"), lent::HEADER);
    assert_eq!(number("SLUICE_DATAGRAM"), lent::DATAGRAM);
    assert_eq!(number("SLUICE_OUTPUT"), lent::OUTPUT);
    assert_eq!(number("SLUICE_LONGEST_INTERVAL"), 65_535);
}

#[test]
fn refusals_are_those_of_the_header() {
    println!("checks: each SLUICE_REFUSED_.. has the number of its variant of Refusal");
    let names = [
        ("LENGTH", Refusal::Length),
        ("FORM", Refusal::Form),
        ("EPOCH", Refusal::Epoch),
        ("NUMBER_ZERO", Refusal::NumberZero),
        ("TOO_OLD", Refusal::TooOld),
        ("TAKEN", Refusal::Taken),
        ("NEVER_SENT", Refusal::NeverSent),
        ("CREDIT", Refusal::Credit),
        ("END", Refusal::End),
        ("INTERVAL", Refusal::Interval),
        ("SHORT", Refusal::Short),
        ("NOT_OPEN", Refusal::NotOpen),
        ("OUTPUT", Refusal::Output),
    ];
    for (name, refusal) in names {
        assert_eq!(number(&format!("SLUICE_REFUSED_{name}")), usize::from(refusal.number()), "{name}");
        assert!(refusal.to_string().ends_with(&format!("({})", refusal.number())), "{refusal}");
        assert_eq!(Refusal::from_number(refusal.number()), Some(refusal));
    }
}
