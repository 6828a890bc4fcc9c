//! Hosts in virtual time: what they give and take in each tick.

/// How much a host does in a tick.
#[derive(Clone, Copy, Debug, PartialEq, Eq)]
pub enum Pace {
    /// All that there is.
    All,
    /// In this percentage of ticks something, at most this many bytes.
    Some(u64, u64),
    /// Once in so many ticks, at most this many bytes.
    Every(u64, u64),
}

/// A host's plan.
#[derive(Clone, Copy, Debug)]
pub struct Host {
    /// Bytes that it wants to give in all.
    pub offers: u64,
    /// How it gives.
    pub gives: Pace,
    /// How it takes.
    pub takes: Pace,
    /// Whether it calls finish when all is given.
    pub finishes: bool,
    /// Ticks it waits after that before it calls finish.
    pub hesitates: u64,
}

impl Host {
    /// Gives all at once, takes all at once, then finishes.
    pub fn eager(offers: u64) -> Host {
        Host { offers, gives: Pace::All, takes: Pace::All, finishes: true, hesitates: 0 }
    }
}
