//! The receiving side (01, section 5), and refusals 8 and 9.

use crate::fault;
use crate::header::Header;
use crate::refusal::Refusal;
use crate::ring::{RING, Ring};
use crate::{MOST, Taken};

/// Bytes that have arrived beyond a missing one: positions `from` up to `to`, which is not among them.
#[derive(Clone, Copy)]
struct Stretch {
    from: u64,
    to: u64,
}

/// What has arrived of the peer's stream.
#[derive(Clone)]
pub struct Receiving {
    /// Bytes that the host has taken.
    taken: u64,
    /// The lowest byte position that isn't here yet.
    low: u64,
    /// What has arrived beyond `low`: rising, apart, none of them at `low`.
    beyond: Vec<Stretch>,
    /// The END's position, once known.
    end: Option<u64>,
    ring: Ring,
}

impl Receiving {
    pub fn new() -> Receiving {
        Receiving { taken: 0, low: 0, beyond: Vec::with_capacity(64), end: None, ring: Ring::new() }
    }

    /// As if all bytes below `position` had arrived and been taken.
    #[cfg(test)]
    pub fn set_positions(&mut self, position: u64) {
        (self.taken, self.low) = (position, position);
    }

    pub fn taken(&self) -> u64 {
        self.taken
    }

    pub fn low(&self) -> u64 {
        self.low
    }

    pub fn end(&self) -> Option<u64> {
        self.end
    }

    /// The position after the highest byte that has arrived.
    pub fn high(&self) -> u64 {
        self.beyond.last().map_or(self.low, |stretch| stretch.to)
    }

    /// Whether a DATA may be accepted; refuses with 8 or 9.
    #[inline]
    pub fn judge(&self, data: &Header) -> Result<(), Refusal> {
        let length = data.length as u64;
        // The first test keeps the sum after it from overflowing.
        if length > 0 && (data.position >= MOST || data.position + length > MOST.min(self.taken + RING as u64)) {
            return Err(Refusal(8));
        }
        let after = data.position + length;
        let beyond_end = length > 0 && self.end.is_some_and(|end| after > end);
        let end_elsewhere = data.end && self.end.is_some_and(|end| after != end);
        let end_before_bytes = data.end && after < self.high();
        if beyond_end || end_elsewhere || end_before_bytes {
            return Err(Refusal(9));
        }
        Ok(())
    }

    /// Keeps the bytes of a DATA that haven't arrived before, and its END.
    #[inline]
    pub fn keep<const FAULT: u8>(&mut self, data: &Header, payload: &[u8]) {
        let after = data.position + payload.len() as u64;
        if data.end {
            self.end = Some(after);
        }
        if FAULT == fault::DELIVERED_TWICE && data.position < self.low && self.low == self.high() {
            self.ring.put(self.low, payload);
            self.low += payload.len() as u64;
        } else if after > self.low {
            let from = data.position.max(self.low);
            let fresh = &payload[(from - data.position) as usize..];
            match self.beyond.last_mut() {
                None if from == self.low => {
                    self.ring.put(from, fresh);
                    self.low = after;
                }
                Some(last) if from == last.to => {
                    self.ring.put(from, fresh);
                    last.to = after;
                }
                _ => self.fill(from, fresh),
            }
        }
    }

    /// Keeps bytes at `from`, which is not below `low`, where none are yet, and joins the stretches they touch.
    fn fill(&mut self, from: u64, bytes: &[u8]) {
        let to = from + bytes.len() as u64;
        let first = self.beyond.partition_point(|stretch| stretch.to < from);
        let last = first + self.beyond[first..].partition_point(|stretch| stretch.from <= to);
        let mut joined = Stretch { from, to };
        let mut missing = from;
        for stretch in &self.beyond[first..last] {
            if missing < stretch.from {
                let gap = (missing - from) as usize..(stretch.from - from) as usize;
                self.ring.put(missing, &bytes[gap]);
            }
            missing = missing.max(stretch.to);
            joined = Stretch { from: joined.from.min(stretch.from), to: joined.to.max(stretch.to) };
        }
        if missing < to {
            self.ring.put(missing, &bytes[(missing - from) as usize..]);
        }
        self.beyond.splice(first..last, [joined]);
        if self.beyond[0].from == self.low {
            self.low = self.beyond.remove(0).to;
        }
    }

    /// Hands up the next bytes.
    #[inline]
    pub fn take<const FAULT: u8>(&mut self, out: &mut [u8]) -> Taken {
        let count = out.len().min((self.low - self.taken) as usize);
        self.ring.get(self.taken, &mut out[..count]);
        self.taken += count as u64;
        let ended = match FAULT {
            fault::END_EARLY => self.end.is_some() && self.taken == self.low,
            _ => self.end == Some(self.taken),
        };
        Taken { count, ended }
    }

    /// An ACK's position: the lowest one missing, or the one after the END.
    pub fn position<const FAULT: u8>(&self) -> u64 {
        let missing = if FAULT == fault::ACK_HIGHEST { self.high() } else { self.low };
        missing + u64::from(self.end == Some(missing))
    }

    /// An ACK's credit: position + credit is *taken* + 65,536 wherever it can be.
    pub fn credit(&self, position: u64) -> u32 {
        (self.taken + RING as u64).saturating_sub(position) as u32
    }
}
