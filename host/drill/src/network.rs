//! Networks (03, sections 1 and 2): when a datagram that was sent is handed over, how often, if at all.

use std::collections::HashMap;

use yardstick::{Header, Kind};

use crate::random::Random;

/// Decides what becomes of each datagram.
pub trait Network {
    /// Adds to `ticks` those, all later than `now`, in which the datagram sent now by end `from` is handed over.
    fn carry(&mut self, from: usize, now: u64, header: &Header, ticks: &mut Vec<u64>);
}

/// Loses, repeats and delays at random; with delays of different lengths datagrams change places.
#[derive(Clone, Debug)]
pub struct Wild {
    /// Choices.
    pub random: Random,
    /// The share that is lost, 0 to 1.
    pub lose: f64,
    /// The share that is handed over twice, 0 to 1.
    pub repeat: f64,
    /// The least and the most ticks under way; at least 1.
    pub delay: (u64, u64),
}

impl Network for Wild {
    fn carry(&mut self, _from: usize, now: u64, _header: &Header, ticks: &mut Vec<u64>) {
        let (least, most) = self.delay;
        if !self.random.happens(self.lose) {
            ticks.push(now + self.random.between(least, most));
        }
        while self.random.happens(self.repeat.min(0.9)) {
            ticks.push(now + self.random.between(least, most));
        }
    }
}

/// How a fair network uses what it is allowed.
#[derive(Clone, Copy, Debug, PartialEq, Eq)]
pub enum Manner {
    /// Loses L - 1 of L in a row and delays the other by D.
    Strict,
    /// As `Strict`, but hands over what does no good, to be free to lose what does: ACKs that tell nothing new, and
    /// what comes in the same tick as another of its row, since one tick brings one ACK.
    Cunning,
    /// Loses and delays at random, often as much as it may.
    Moody,
}

/// An (L, D)-fair network that loses and delays as much as it may.
#[derive(Clone, Debug)]
pub struct Fair {
    random: Random,
    l: u64,
    d: u64,
    manner: Manner,
    /// The sendings in a row that were lost: of each segment, of ACKs, of PROBEs.
    lost: HashMap<(usize, Row), u64>,
    /// The tick in which the last one of a row that was not lost comes.
    comes: HashMap<(usize, Row), u64>,
    /// What the ACKs that were not lost have told: position and limit.
    told: [(u64, u64); 2],
}

/// Fairness counts sendings in these rows.
#[derive(Clone, Copy, Debug, PartialEq, Eq, Hash)]
pub enum Row {
    /// The segment that starts here.
    Segment(u64),
    /// All ACKs of an end.
    Acks,
    /// All PROBEs of an end.
    Probes,
}

impl Row {
    /// The row in which a sending counts.
    pub fn of(header: &Header) -> Row {
        match header.kind {
            Kind::Data => Row::Segment(header.position),
            Kind::Ack => Row::Acks,
            Kind::Probe => Row::Probes,
        }
    }
}

impl Fair {
    /// A fair network with choices of its own.
    pub fn new(l: u64, d: u64, manner: Manner, random: Random) -> Fair {
        Fair { random, l, d, manner, lost: HashMap::new(), comes: HashMap::new(), told: [(0, 0); 2] }
    }

    /// Whether it wants to lose a datagram that it may lose.
    fn loses(&mut self, from: usize, header: &Header) -> bool {
        let tells = (header.position, header.position + u64::from(header.credit));
        let news = tells.0 > self.told[from].0 || tells.1 > self.told[from].1;
        match self.manner {
            Manner::Strict => true,
            Manner::Cunning => header.kind != Kind::Ack || news,
            Manner::Moody => self.random.chance(80),
        }
    }
}

impl Network for Fair {
    fn carry(&mut self, from: usize, now: u64, header: &Header, ticks: &mut Vec<u64>) {
        let row = (from, Row::of(header));
        let comes = self.comes.get(&row).copied().unwrap_or(0);
        if self.manner == Manner::Cunning && header.kind != Kind::Ack && comes > now {
            self.lost.insert(row, 0);
            ticks.push(comes);
            return;
        }
        let lost = self.lost.get(&row).copied().unwrap_or(0);
        if lost + 1 < self.l && self.loses(from, header) {
            self.lost.insert(row, lost + 1);
            return;
        }
        self.lost.insert(row, 0);
        if header.kind == Kind::Ack {
            let (position, limit) = self.told[from];
            let tells = header.position + u64::from(header.credit);
            self.told[from] = (position.max(header.position), limit.max(tells));
        }
        let delay = match self.manner {
            Manner::Moody if self.random.chance(50) => self.random.between(1, self.d),
            _ => self.d,
        };
        ticks.push(now + delay);
        self.comes.insert(row, now + delay);
        if self.manner == Manner::Moody && self.random.chance(20) {
            ticks.push(now + delay + self.random.between(0, 40));
        }
    }
}
