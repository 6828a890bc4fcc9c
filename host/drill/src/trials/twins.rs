//! The same random calls, honest, damaged and at the edges of the present state, to two machines.

use std::fmt;

use yardstick::{End, HEADER, Header, Kind, MOST, PAYLOAD, RING, State};

use crate::machine::Machine;
use crate::random::Random;

/// What was called, and what came out.
#[derive(Clone, Debug, Default)]
pub struct Sum {
    /// Calls of all kinds.
    pub calls: u64,
    /// Datagrams accepted.
    pub accepted: u64,
    /// Datagrams and opens refused, by number.
    pub refused: [u64; 14],
    /// Bytes given, taken and sent.
    pub given: u64,
    /// Bytes that take handed up.
    pub taken: u64,
    /// Bytes of datagrams that tick wrote.
    pub written: u64,
    /// Runs in which take reported the END.
    pub ends: u64,
}

impl fmt::Display for Sum {
    fn fmt(&self, f: &mut fmt::Formatter<'_>) -> fmt::Result {
        let Sum { calls, accepted, given, taken, written, ends, .. } = self;
        writeln!(f, "{calls} calls, every answer and byte alike; {accepted} datagrams accepted, {ends} ENDs reported")?;
        writeln!(f, "{given} bytes given, {taken} taken, {written} written as datagrams")?;
        write!(f, "refused by number:")?;
        (1..=13).filter(|&k| self.refused[k] > 0).try_for_each(|k| write!(f, " {k}: {}", self.refused[k]))
    }
}

/// The sum over many runs.
pub fn sum(runs: &[Sum]) -> Sum {
    let mut all = Sum::default();
    for run in runs {
        all.calls += run.calls;
        all.accepted += run.accepted;
        all.given += run.given;
        all.taken += run.taken;
        all.written += run.written;
        all.ends += run.ends;
        for (sum, refused) in all.refused.iter_mut().zip(run.refused) {
            *sum += refused;
        }
    }
    all
}

/// The machine under trial and the yardstick, called alike; a peer that sends honest datagrams to both.
struct Twins<M> {
    tried: M,
    model: End,
    peer: End,
    random: Random,
    epoch: u64,
    interval: u64,
    /// What the peer has sent.
    honest: Vec<Vec<u8>>,
    /// Percentage of datagrams that are honest.
    honesty: u64,
    /// Percentage of those that get a number about the window.
    renumbered: u64,
    /// The peer takes nothing and no ACK grants more, so that room runs out and PROBEs are sent.
    stingy: bool,
    sum: Sum,
    buffers: [Vec<u8>; 2],
}

/// Runs `calls` random calls on `M` and on the yardstick; the first difference is an error.
pub fn trial<M: Machine>(seed: u64, calls: u64) -> Result<Sum, String> {
    let mut random = Random::new(seed);
    let epoch = random.pick(&[0, 7, u64::MAX, seed]);
    let interval = random.pick(&[1, 2, 3, 10, 65_535]);
    let fault = |k| format!("open is refused with {k}");
    let model = End::open(epoch, interval).map_err(|k| fault(k.0))?;
    let honesty = random.pick(&[20, 60, 90, 100]);
    let renumbered = random.pick(&[0, 50, 90]);
    let stingy = random.chance(25);
    let mut twins = Twins {
        tried: M::open(epoch, interval).map_err(fault)?,
        peer: model.clone(),
        model,
        random,
        epoch,
        interval,
        honest: Vec::new(),
        honesty,
        renumbered,
        stingy,
        sum: Sum::default(),
        buffers: [vec![0; RING + 64], vec![0; RING + 64]],
    };
    for call in 1..=calls {
        twins.call().map_err(|why| format!("call {call}: {why}"))?;
    }
    twins.drain().map_err(|why| format!("at the end: {why}"))?;
    Ok(twins.sum)
}

impl<M: Machine> Twins<M> {
    /// One random call.
    fn call(&mut self) -> Result<(), String> {
        self.sum.calls += 1;
        if self.model.state().highest >= MOST - 1 && self.random.chance(3) {
            // A very high number has shut out all that follow: enough of that.
            return self.reopen();
        }
        match self.random.below(1_000) {
            0..150 => self.give(),
            150..300 => self.take(),
            300..500 => self.tick(),
            500..502 => self.finish(),
            502..504 => self.reopen(),
            504..650 => {
                self.peer();
                Ok(())
            }
            650..700 => self.exchange(),
            _ => self.datagram(),
        }
    }

    /// A length: often an edge.
    fn length(&mut self) -> usize {
        let small = self.random.below(200) as usize;
        let large = self.random.below(RING as u64 + 64) as usize;
        self.random.pick(&[0, 1, small, small, 1_023, 1_024, 1_025, 3_000, large, RING, RING + 1])
    }

    fn give(&mut self) -> Result<(), String> {
        let length = self.length();
        let mut bytes = vec![0; length];
        self.random.fill(&mut bytes);
        let answers = (self.tried.give(&bytes), self.model.give(&bytes));
        self.sum.given += answers.1 as u64;
        alike("give", answers)
    }

    fn take(&mut self) -> Result<(), String> {
        let length = self.length();
        let [first, second] = &mut self.buffers;
        let mark = self.random.bits() as u8;
        first[..length].fill(mark);
        second[..length].fill(mark);
        let taken = self.model.take(&mut second[..length]);
        let answers = (self.tried.take(&mut first[..length]), (taken.count, taken.ended));
        self.sum.taken += taken.count as u64;
        self.sum.ends += u64::from(taken.ended && taken.count > 0);
        alike("take", answers)?;
        // Bytes beyond the count are the host's own: take leaves them as they were.
        if first[..length] != second[..length] {
            return Err(format!("take of {length}: the bytes differ"));
        }
        Ok(())
    }

    fn tick(&mut self) -> Result<(), String> {
        let sent: Vec<&[u8]> = self.model.tick().collect();
        let mut count = 0;
        for datagram in self.tried.tick() {
            let Some(expected) = sent.get(count) else {
                return Err(format!("tick sends more than {} datagrams", sent.len()));
            };
            if datagram != *expected {
                let headers = (Header::read(datagram), Header::read(expected));
                return Err(format!("datagram {count} of a tick differs: {headers:?}"));
            }
            self.sum.written += datagram.len() as u64;
            count += 1;
        }
        alike("the count of datagrams in a tick", (count, sent.len()))?;
        for datagram in sent {
            if self.random.chance(70) {
                // The peer may refuse it: its state is not what the crafted datagrams say.
                let _ = self.peer.datagram(datagram);
            }
        }
        Ok(())
    }

    fn finish(&mut self) -> Result<(), String> {
        self.tried.finish();
        self.model.finish();
        Ok(())
    }

    /// A fresh end in the same place; a wrong interval is refused and changes nothing.
    fn reopen(&mut self) -> Result<(), String> {
        let wrong = self.random.pick(&[0, 65_536, u64::MAX]);
        let interval = if self.random.chance(50) { wrong } else { self.random.between(1, 20) };
        let epoch = self.random.bits();
        let answers = (self.tried.reopen(epoch, interval), Machine::reopen(&mut self.model, epoch, interval));
        match answers.1 {
            Err(k) => self.sum.refused[usize::from(k)] += 1,
            Ok(()) => {
                (self.epoch, self.interval) = (epoch, interval);
                self.peer = self.model.clone();
                self.honest.clear();
            }
        }
        alike("open", answers)
    }

    /// The peer gives, takes and ticks.
    fn peer(&mut self) {
        let mut bytes = vec![0; self.length().min(5_000)];
        self.random.fill(&mut bytes);
        self.peer.give(&bytes);
        let length = if self.stingy { 0 } else { self.length() };
        self.peer.take(&mut self.buffers[0][..length]);
        if self.random.chance(1) {
            self.peer.finish();
        }
        self.honest.extend(self.peer.tick().map(<[u8]>::to_vec));
    }

    fn datagram(&mut self) -> Result<(), String> {
        let mut bytes = if !self.honest.is_empty() && self.random.chance(self.honesty) {
            let last = self.honest.len() as u64 - 1;
            let back = if self.random.chance(80) { last.min(40) } else { last };
            let mut bytes = self.honest[(last - self.random.between(0, back)) as usize].clone();
            if self.random.chance(self.renumbered) {
                // Crafted numbers run ahead of the peer's; so it goes on being heard.
                let number = self.number(&self.model.state());
                bytes[12..20].copy_from_slice(&number.to_be_bytes());
            }
            bytes
        } else {
            self.crafted()
        };
        if self.random.chance(20) {
            self.damage(&mut bytes);
        }
        self.hand_over(&bytes)
    }

    /// All that the peer sends in a tick, in any order, some of it lost.
    fn exchange(&mut self) -> Result<(), String> {
        let known = self.honest.len();
        self.peer();
        let mut fresh = self.honest[known..].to_vec();
        self.random.shuffle(&mut fresh);
        let renumbered = self.random.chance(self.renumbered);
        for mut datagram in fresh {
            if self.random.chance(95) {
                if renumbered {
                    let number = self.model.state().highest.saturating_add(1);
                    datagram[12..20].copy_from_slice(&number.to_be_bytes());
                }
                self.hand_over(&datagram)?;
            }
        }
        Ok(())
    }

    /// One datagram to both.
    fn hand_over(&mut self, bytes: &[u8]) -> Result<(), String> {
        let answers = (self.tried.datagram(bytes), self.model.datagram(bytes).map_err(|k| k.0));
        match answers.1 {
            Ok(()) => self.sum.accepted += 1,
            Err(k) => self.sum.refused[usize::from(k)] += 1,
        }
        let length = bytes.len();
        alike("datagram", answers)
            .map_err(|why| format!("{why}; {length} bytes: {:02x?}", &bytes[..length.min(HEADER)]))
    }

    /// A well-formed datagram at the edges of the present state.
    fn crafted(&mut self) -> Vec<u8> {
        let state = self.model.state();
        let kind = self.random.pick(&[Kind::Data, Kind::Data, Kind::Data, Kind::Ack, Kind::Ack, Kind::Probe]);
        let mut length = self.length().min(PAYLOAD);
        let end = kind == Kind::Data && (self.random.chance(3) || state.end.is_some() && self.random.chance(30));
        if kind != Kind::Data || end && self.random.chance(50) {
            length = 0;
        } else if !end {
            length = length.max(1);
        }
        let number = self.number(&state);
        let (position, credit) = match kind {
            Kind::Data => (self.data_position(&state, length as u64), 0),
            Kind::Ack => {
                let any = self.random.below(1 << 20) as u32;
                let credit = self.random.pick(&[0, 1, any, 65_535, 65_536, u32::MAX]);
                (self.ack_position(&state), if self.stingy { 0 } else { credit })
            }
            Kind::Probe => (self.random.bits(), 0),
        };
        let header = Header { kind, end, length, epoch: self.epoch, number, position, credit };
        let mut bytes = vec![0; HEADER + length];
        header.write(&mut bytes);
        self.random.fill(&mut bytes[HEADER..]);
        bytes
    }

    /// A number about the window; a very high one, which shuts out the rest, only now and then.
    fn number(&mut self, state: &State) -> u64 {
        let h = state.highest;
        if self.random.chance(60) {
            return h.saturating_add(1);
        }
        if self.random.below(1_000) == 0 {
            return self.random.pick(&[MOST - 1, MOST, u64::MAX - 1, u64::MAX]);
        }
        let near = h.saturating_sub(self.random.below(1_030));
        let edge = h.saturating_sub(self.random.between(1_022, 1_026));
        let ahead = h.saturating_add(self.random.between(1, 70));
        let jump = h.saturating_add(self.random.between(1_000, 1_030));
        let ahead = if self.random.chance(5) { jump } else { ahead };
        self.random.pick(&[0, 1, h, near, near, near, edge, edge, ahead, ahead])
    }

    /// A position of DATA about what is taken, missing, granted, and the END.
    fn data_position(&mut self, state: &State, length: u64) -> u64 {
        let shift = self.random.below(5);
        let granted = (state.taken + RING as u64).saturating_sub(length);
        let inside = state.taken + self.random.below(RING as u64);
        let end = state.end.unwrap_or(state.high).saturating_sub(length);
        let last = MOST.saturating_sub(length);
        let near = state.low + self.random.below(3_000);
        let back = state.low.saturating_sub(self.random.below(2_000));
        let base = self.random.pick(&[
            state.low,
            state.low,
            state.low,
            near,
            near,
            back,
            back,
            state.taken,
            state.high,
            granted,
            inside,
            end,
            last,
            u64::MAX,
        ]);
        // Two below, one below, exactly there, one above, two above.
        base.saturating_sub(2).saturating_add(shift)
    }

    /// A position of an ACK about what was sent and acknowledged.
    fn ack_position(&mut self, state: &State) -> u64 {
        let within = state.acked + self.random.below((state.next + 1).saturating_sub(state.acked).max(1));
        let aligned = state.acked + 1_024 * self.random.below(8);
        self.random.pick(&[
            state.acked,
            within,
            aligned,
            state.next,
            state.next + 1,
            state.next.saturating_sub(1),
            u64::MAX,
        ])
    }

    /// Flips, cuts or lengthens.
    fn damage(&mut self, bytes: &mut Vec<u8>) {
        match self.random.below(8) {
            0 => bytes.truncate(self.random.below(bytes.len() as u64 + 1) as usize),
            1 => bytes.push(self.random.bits() as u8),
            2 => {
                // A payload above 1,024 bytes that the length field admits to.
                let length = self.random.pick(&[1_025u16, 2_000, 65_535]);
                bytes.resize(HEADER + usize::from(length), 0);
                bytes[2..4].copy_from_slice(&length.to_be_bytes());
            }
            3 => {
                let at = self.random.pick(&[0, 1, 28, 31]);
                bytes[at] = self.random.pick(&[0, 1, 2, 3, 4, 128, 255]);
            }
            _ => {
                let at = self.random.below(bytes.len().min(HEADER) as u64) as usize;
                bytes[at] ^= 1 << self.random.below(8);
            }
        }
    }

    /// Takes and ticks until nothing is left unseen.
    fn drain(&mut self) -> Result<(), String> {
        for _ in 0..self.interval.min(12) + 3 {
            self.take()?;
            self.tick()?;
        }
        Ok(())
    }
}

/// An error where two answers differ.
fn alike<T: PartialEq + fmt::Debug>(call: &str, (tried, model): (T, T)) -> Result<(), String> {
    if tried == model { Ok(()) } else { Err(format!("{call} answers {tried:?}, the yardstick {model:?}")) }
}
