//! What no run of calls can reach: numbers, ticks and positions at 2^62 (01, section 2). And the far edges of 8 and 9.

use crate::{End, HEADER, Header, Kind, MOST, Refusal};

fn open() -> End {
    End::open(7, 1).expect("an interval of 1")
}

fn data(number: u64, position: u64, end: bool, payload: &[u8]) -> Vec<u8> {
    let header = Header { kind: Kind::Data, end, length: payload.len(), epoch: 7, number, position, credit: 0 };
    let mut bytes = vec![0; HEADER + payload.len()];
    header.write(&mut bytes);
    bytes[HEADER..].copy_from_slice(payload);
    bytes
}

#[test]
fn numbers_end_below_2_to_the_62() {
    println!("checks: 2^62 - 1 is the last number that leaves, in the middle of a tick too");
    let mut end = open();
    end.number = MOST - 3;
    end.give(&[1; 5_000]);
    let numbers: Vec<u64> = end.tick().map(|datagram| Header::read(datagram).expect("its own").number).collect();
    assert_eq!(numbers, [MOST - 2, MOST - 1]);
    assert_eq!(end.tick().count(), 0);
    // Only tick falls silent.
    assert_eq!(end.give(&[1; 10]), 10);
    assert_eq!(end.datagram(&data(1, 0, false, &[9])), Ok(()));
    assert_eq!(end.take(&mut [0; 4]).count, 1);
}

#[test]
fn the_clock_stops_at_2_to_the_62() {
    println!("checks: in tick 2^62 and after it nothing is sent");
    let mut end = open();
    end.clock = MOST - 2;
    end.give(&[1; 10]);
    assert_eq!(end.tick().count(), 1);
    assert_eq!(end.tick().count(), 0);
    assert_eq!((end.tick().count(), end.clock), (0, MOST));
}

#[test]
fn bytes_end_at_2_to_the_62() {
    println!("checks: give takes no byte at 2^62, 8 refuses one, and all is accepted below");
    let mut end = open();
    end.sending.set_positions(MOST - 4);
    assert_eq!(end.give(&[1; 10]), 4);
    assert_eq!(end.tick().count(), 1);
    assert_eq!(end.tick().count(), 0);
    end.receiving.set_positions(MOST - 4);
    assert_eq!(end.datagram(&data(1, MOST - 4, false, &[1; 5])), Err(Refusal(8)));
    assert_eq!(end.datagram(&data(1, MOST, false, &[1])), Err(Refusal(8)));
    assert_eq!(end.datagram(&data(1, MOST - 4, true, &[1; 4])), Ok(()));
    assert!(end.take(&mut [0; 9]).ended);
}

#[test]
fn an_end_alone_is_accepted_however_far() {
    println!("checks: 8 is about bytes; an END alone is held to 9 only");
    let mut end = open();
    assert_eq!(end.datagram(&data(1, u64::MAX, false, &[1])), Err(Refusal(8)));
    assert_eq!(end.datagram(&data(1, u64::MAX, true, &[])), Ok(()));
    assert_eq!(end.datagram(&data(2, u64::MAX - 1, true, &[])), Err(Refusal(9)));
    assert_eq!(end.datagram(&data(2, 0, false, &[1; 1_024])), Ok(()));
}
