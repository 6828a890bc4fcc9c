//! The six calls (01, section 1), so that trials can drive any end.

use sluicestream::lent::{Lent, OUTPUT};
use sluicestream::{Datagrams, ffi};

/// An end that trials can drive. Refusals are their numbers.
pub trait Machine: Sized {
    /// What reports call it.
    const NAME: &'static str;

    /// A fresh end.
    fn open(epoch: u64, interval: u64) -> Result<Self, u8>;
    /// A fresh end in the place of this one.
    fn reopen(&mut self, epoch: u64, interval: u64) -> Result<(), u8> {
        *self = Self::open(epoch, interval)?;
        Ok(())
    }
    /// Answers how many of the bytes were taken.
    fn give(&mut self, bytes: &[u8]) -> usize;
    /// No more bytes will be given.
    fn finish(&mut self);
    /// One datagram from the network.
    fn datagram(&mut self, bytes: &[u8]) -> Result<(), u8>;
    /// Answers how many bytes were handed up, and whether the END has been reached.
    fn take(&mut self, out: &mut [u8]) -> (usize, bool);
    /// The datagrams to be sent now.
    fn tick(&mut self) -> impl Iterator<Item = &[u8]>;
}

impl<const FAULT: u8> Machine for yardstick::EndWith<FAULT> {
    const NAME: &'static str = "yardstick";

    fn open(epoch: u64, interval: u64) -> Result<Self, u8> {
        Self::open(epoch, interval).map_err(|refusal| refusal.0)
    }

    fn give(&mut self, bytes: &[u8]) -> usize {
        self.give(bytes)
    }

    fn finish(&mut self) {
        self.finish();
    }

    fn datagram(&mut self, bytes: &[u8]) -> Result<(), u8> {
        self.datagram(bytes).map_err(|refusal| refusal.0)
    }

    fn take(&mut self, out: &mut [u8]) -> (usize, bool) {
        let taken = self.take(out);
        (taken.count, taken.ended)
    }

    fn tick(&mut self) -> impl Iterator<Item = &[u8]> {
        self.tick()
    }
}

impl Machine for sluicestream::End {
    const NAME: &'static str = "sluicestream";

    fn open(epoch: u64, interval: u64) -> Result<Self, u8> {
        Self::open(epoch, interval).map_err(|refusal| refusal.number())
    }

    fn give(&mut self, bytes: &[u8]) -> usize {
        self.give(bytes)
    }

    fn finish(&mut self) {
        self.finish();
    }

    fn datagram(&mut self, bytes: &[u8]) -> Result<(), u8> {
        self.datagram(bytes).map_err(|refusal| refusal.number())
    }

    fn take(&mut self, out: &mut [u8]) -> (usize, bool) {
        let taken = self.take(out);
        (taken.count, taken.ended)
    }

    fn tick(&mut self) -> impl Iterator<Item = &[u8]> {
        self.tick()
    }
}

/// The proved end on lent buffers that are compared with a copy after each refusal.
#[derive(Clone)]
pub struct Compared {
    lent: Lent,
    /// The lent buffers as they were after the last call.
    copy: Lent,
    output: Vec<u8>,
    epoch: u64,
    interval: u64,
}

impl Compared {
    /// Keeps a copy where the call was done; where it was refused, compares with the last one.
    fn judge(&mut self, call: &str, answer: i64) -> Result<usize, u8> {
        if let Ok(value) = usize::try_from(answer) {
            self.copy.clone_from(&self.lent);
            return Ok(value);
        }
        assert!(self.lent == self.copy, "{call} was refused with {} and yet changed a lent buffer", -answer);
        Err(answer.unsigned_abs() as u8)
    }

    /// Calls with buffers that are too short are refused with 11, or 13 for tick's output, and change nothing.
    fn call_too_short(&mut self) {
        let mut ended = 2;
        let mut output = [0xa5; 64];
        let Lent { table, outgoing, incoming, marks } = &mut self.lent;
        let shorter = table.len() - 1;
        let answers = [
            ffi::open(&mut table[..shorter], outgoing, incoming, marks, self.epoch, self.interval),
            ffi::open(table, outgoing, &mut incoming[1..], marks, self.epoch, self.interval),
            ffi::give(table, &mut outgoing[1..], &[1, 2, 3]),
            ffi::finish(&mut table[..shorter]),
            ffi::datagram(table, incoming, &mut marks[1..], &[0; 32]),
            ffi::take(table, &mut incoming[1..], &mut output, &mut ended),
            ffi::tick(table, &mut outgoing[1..], &mut self.output),
        ];
        for answer in answers {
            assert_eq!(self.judge("a call with a buffer too short", answer), Err(11));
        }
        let answer = ffi::tick(&mut self.lent.table, &mut self.lent.outgoing, &mut output);
        assert_eq!(self.judge("tick", answer), Err(13));
        assert_eq!((ended, output), (2, [0xa5; 64]), "a refused call wrote something out");
    }
}

impl Machine for Compared {
    const NAME: &'static str = "sluicestream, compared after each refusal";

    fn open(epoch: u64, interval: u64) -> Result<Self, u8> {
        let lent = Lent::new();
        let mut end = Compared { copy: lent.clone(), lent, output: vec![0; OUTPUT], epoch, interval };
        assert_eq!(end.judge_never_opened(), [Err(12); 5], "calls on an end that was never opened");
        end.reopen(epoch, interval)?;
        Ok(end)
    }

    fn reopen(&mut self, epoch: u64, interval: u64) -> Result<(), u8> {
        let Lent { table, outgoing, incoming, marks } = &mut self.lent;
        let answer = ffi::open(table, outgoing, incoming, marks, epoch, interval);
        self.judge("open", answer)?;
        self.call_too_short();
        Ok(())
    }

    fn give(&mut self, bytes: &[u8]) -> usize {
        let answer = ffi::give(&mut self.lent.table, &mut self.lent.outgoing, bytes);
        self.judge("give", answer).expect("give on an open end")
    }

    fn finish(&mut self) {
        let answer = ffi::finish(&mut self.lent.table);
        self.judge("finish", answer).expect("finish on an open end");
        self.call_too_short();
    }

    fn datagram(&mut self, bytes: &[u8]) -> Result<(), u8> {
        let Lent { table, incoming, marks, .. } = &mut self.lent;
        let answer = ffi::datagram(table, incoming, marks, bytes);
        self.judge("datagram", answer).map(|_| ())
    }

    fn take(&mut self, out: &mut [u8]) -> (usize, bool) {
        let mut ended = 2;
        let answer = ffi::take(&mut self.lent.table, &mut self.lent.incoming, out, &mut ended);
        assert!(ended <= 1, "take sets ended to 0 or 1");
        (self.judge("take", answer).expect("take on an open end"), ended == 1)
    }

    fn tick(&mut self) -> impl Iterator<Item = &[u8]> {
        let mut output = std::mem::take(&mut self.output);
        let answer = ffi::tick(&mut self.lent.table, &mut self.lent.outgoing, &mut output);
        self.output = output;
        let used = self.judge("tick", answer).expect("tick on an open end");
        Datagrams::new(&self.output[..used])
    }
}

impl Compared {
    /// The five calls on a table of zeros.
    fn judge_never_opened(&mut self) -> [Result<usize, u8>; 5] {
        let mut ended = 0;
        let Lent { table, outgoing, incoming, marks } = &mut self.lent;
        let answers = [
            ffi::give(table, outgoing, b"x"),
            ffi::finish(table),
            ffi::datagram(table, incoming, marks, &[]),
            ffi::take(table, incoming, &mut [0; 8], &mut ended),
            ffi::tick(table, outgoing, &mut []),
        ];
        answers.map(|answer| self.judge("a call on an end never opened", answer))
    }
}
