//! The calls take little stack: no copy goes through a buffer as large as a ring.

use std::thread;

use sluicestream::{End, Refusal};

/// The stack of the thread that calls: no room for 65,536 bytes.
const STACK: usize = 48 * 1024;

/// Sends `bytes` and the END from one end to the other, every third datagram lost, and answers what was taken.
fn carried(bytes: &[u8]) -> Result<Vec<u8>, Refusal> {
    let mut near = End::open(7, 2)?;
    let mut far = End::open(7, 2)?;
    let mut given = 0;
    let mut taken = Vec::new();
    let mut room = vec![0; 65_536];
    let mut sent = 0;
    loop {
        given += near.give(&bytes[given..]);
        if given == bytes.len() {
            near.finish();
        }
        for datagram in near.tick() {
            sent += 1;
            if sent % 3 != 0 {
                far.datagram(datagram)?;
            }
        }
        let up = far.take(&mut room);
        taken.extend_from_slice(&room[..up.count]);
        if up.ended {
            return Ok(taken);
        }
        for datagram in far.tick() {
            near.datagram(datagram)?;
        }
    }
}

#[test]
fn calls_run_on_a_small_stack() {
    println!("checks: 200,000 bytes from end to end, with losses, on a stack of 48 KiB");
    let bytes: Vec<u8> = (0..200_000_u32).map(|i| (i % 251) as u8).collect();
    let expected = bytes.clone();
    let thread = thread::Builder::new().stack_size(STACK).spawn(move || carried(&bytes));
    let taken = thread.expect("a thread with a small stack").join().expect("the thread ends");
    assert_eq!(taken.as_deref(), Ok(expected.as_slice()));
}
