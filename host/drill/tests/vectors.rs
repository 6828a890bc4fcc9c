//! The worked examples of documents 01 and 03, on the proved end and on the yardstick.

use drill::machine::Machine;
use yardstick::{HEADER, Header, Kind};

/// The three datagrams of 01, section 2.
const DATA: &str = "01 00 00 10 00 00 00 00 00 00 00 07 00 00 00 00 00 00 00 01 00 00 00 00 00 00 00 00 00 00 00 00
    47 41 54 45 20 33 20 54 4f 20 34 30 20 43 4d 0a";
const ACK: &str = "02 00 00 00 00 00 00 00 00 00 00 07 00 00 00 00 00 00 00 01 00 00 00 00 00 00 00 10 00 00 ff f0";
const END: &str = "01 01 00 00 00 00 00 00 00 00 00 07 00 00 00 00 00 00 00 02 00 00 00 00 00 00 00 10 00 00 00 00";

fn bytes(hex: &str) -> Vec<u8> {
    hex.split_whitespace().map(|byte| u8::from_str_radix(byte, 16).expect("two hexadecimal digits")).collect()
}

fn sent<M: Machine>(end: &mut M) -> Vec<Vec<u8>> {
    end.tick().map(<[u8]>::to_vec).collect()
}

fn datagram(kind: Kind, number: u64, position: u64, payload: &[u8]) -> Vec<u8> {
    let header = Header { kind, end: false, length: payload.len(), epoch: 7, number, position, credit: 0 };
    let mut bytes = vec![0; HEADER + payload.len()];
    header.write(&mut bytes);
    bytes[HEADER..].copy_from_slice(payload);
    bytes
}

/// 16 bytes of DATA, an ACK for them from an end whose host has taken none yet, and the END alone.
fn three_datagrams<M: Machine>() {
    println!("checks: the three datagrams of 01, section 2 ({})", M::NAME);
    let mut room = M::open(7, 50).unwrap();
    let mut gate = M::open(7, 50).unwrap();
    assert_eq!(room.give(b"GATE 3 TO 40 CM\n"), 16);
    assert_eq!(sent(&mut room), [bytes(DATA)]);
    assert_eq!(gate.datagram(&bytes(DATA)), Ok(()));
    assert_eq!(sent(&mut gate), [bytes(ACK)]);
    room.finish();
    assert_eq!(sent(&mut room), [bytes(END)]);
    assert_eq!(room.datagram(&bytes(ACK)), Ok(()));
    let mut out = [0; 64];
    assert_eq!(gate.take(&mut out), (16, false));
    assert_eq!(gate.datagram(&bytes(END)), Ok(()));
    assert_eq!(gate.take(&mut out), (0, true));
    assert_eq!(gate.take(&mut []), (0, true));
    // After the END position + credit is taken + 65,536 still, as position is not beyond it.
    let ack = Header::read(&sent(&mut gate)[0]).unwrap();
    assert_eq!((ack.kind, ack.position, ack.credit), (Kind::Ack, 17, 65_535));
}

/// The numbers of 01, section 4, and what becomes of them.
fn window<M: Machine>() {
    println!("checks: the table of 01, section 4 ({})", M::NAME);
    let mut end = M::open(7, 50).unwrap();
    let table = [
        (0, 4),
        (1, 0),
        (1, 6),
        (5, 0),
        (3, 0),
        (3, 6),
        (1_024, 0),
        (1, 6),
        (2, 0),
        (1_025, 0),
        (1, 5),
        (2, 6),
        (4, 0),
        (5_000, 0),
        (3_977, 0),
        (3_976, 5),
        (5_000, 6),
        (4_999, 0),
    ];
    for (number, refusal) in table {
        let expected = if refusal == 0 { Ok(()) } else { Err(refusal) };
        assert_eq!(end.datagram(&datagram(Kind::Probe, number, 0, &[])), expected, "number {number}");
    }
}

/// Why D stops at 32 (03, section 2): a late datagram among 32 in each tick.
fn late_by<M: Machine>(ticks: u64) -> Result<(), u8> {
    let mut end = M::open(7, 50).unwrap();
    let late = 1;
    for number in (late + 1)..=(32 * ticks) {
        end.datagram(&datagram(Kind::Probe, number, 0, &[])).unwrap();
    }
    end.datagram(&datagram(Kind::Probe, late, 0, &[]))
}

fn largest_delay<M: Machine>() {
    println!("checks: 31 and 32 ticks late is accepted, 33 refused with 5 ({})", M::NAME);
    assert_eq!([late_by::<M>(31), late_by::<M>(32), late_by::<M>(33)], [Ok(()), Ok(()), Err(5)]);
}

/// A full buffer: no room, no credit, a PROBE at once and every R ticks, room after an ACK.
fn credit<M: Machine>() {
    println!("checks: credit, PROBE and room at the edge of 65,536 bytes ({})", M::NAME);
    let mut room = M::open(7, 5).unwrap();
    let mut gate = M::open(7, 5).unwrap();
    assert_eq!(room.give(&vec![1; 70_000]), 65_536);
    for _ in 0..2 {
        for datagram in sent(&mut room) {
            assert_eq!(gate.datagram(&datagram), Ok(()));
        }
    }
    for datagram in sent(&mut gate) {
        assert_eq!(room.datagram(&datagram), Ok(()));
    }
    assert_eq!(room.give(&[2; 100]), 100);
    let probes: Vec<usize> = (0..12).map(|_| sent(&mut room).len()).collect();
    assert_eq!(probes, [1, 0, 0, 0, 0, 1, 0, 0, 0, 0, 1, 0]);
    assert_eq!(gate.take(&mut [0; 1]), (1, false));
    let beyond = datagram(Kind::Data, 900, 65_536, &[2, 2]);
    assert_eq!(gate.datagram(&beyond), Err(8));
    let within = datagram(Kind::Data, 900, 65_536, &[2]);
    assert_eq!(gate.datagram(&within), Ok(()));
}

/// Runs an example on both machines.
macro_rules! on_both {
    ($($example:ident),*) => {$(
        mod $example {
            #[test]
            fn on_the_proved_end() {
                super::$example::<sluicestream::End>();
            }
            #[test]
            fn on_the_yardstick() {
                super::$example::<yardstick::End>();
            }
        }
    )*};
}

on_both!(three_datagrams, window, largest_delay, credit);
