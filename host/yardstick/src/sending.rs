//! The sending side (01, section 6), and refusal 7.

use crate::MOST;
use crate::fault;
use crate::header::{Header, Kind, PAYLOAD};
use crate::output::Output;
use crate::refusal::Refusal;
use crate::ring::{RING, Ring};

/// How many segments are kept at a time.
const SEGMENTS: usize = 64;

/// A segment starts where the one before ends, the oldest at `acked`.
#[derive(Clone, Copy)]
struct Segment {
    /// The position after its last one, the END counted.
    to: u64,
    /// The tick of its last sending.
    at: u64,
}

/// What was given and isn't yet acknowledged.
#[derive(Clone)]
pub struct Sending {
    /// Bytes that give accepted; the END's position, once closed.
    given: u64,
    /// finish was called.
    closed: bool,
    /// Where the oldest kept segment starts.
    acked: u64,
    /// The next position to be sent.
    next: u64,
    /// How far the peer accepts bytes.
    limit: u64,
    /// Segment number s is at s % 64; `first` is the oldest, `kept` of them in a row.
    segments: [Segment; SEGMENTS],
    first: usize,
    kept: usize,
    /// The tick of the last PROBE since room ran out.
    probed: Option<u64>,
    ring: Ring,
}

impl Sending {
    pub fn new() -> Sending {
        Sending {
            given: 0,
            closed: false,
            acked: 0,
            next: 0,
            limit: RING as u64,
            segments: [Segment { to: 0, at: 0 }; SEGMENTS],
            first: 0,
            kept: 0,
            probed: None,
            ring: Ring::new(),
        }
    }

    /// As if all bytes below `position` had been given, sent and acknowledged.
    #[cfg(test)]
    pub fn set_positions(&mut self, position: u64) {
        (self.given, self.acked, self.next, self.limit) = (position, position, position, position + RING as u64);
    }

    pub fn given(&self) -> u64 {
        self.given
    }

    pub fn acked(&self) -> u64 {
        self.acked
    }

    pub fn next(&self) -> u64 {
        self.next
    }

    pub fn limit(&self) -> u64 {
        self.limit
    }

    /// Takes as many bytes as there is room for.
    #[inline]
    pub fn give(&mut self, bytes: &[u8]) -> usize {
        if self.closed {
            return 0;
        }
        let room = (RING as u64 - (self.given - self.acked)).min(MOST - self.given);
        let count = bytes.len().min(room as usize);
        self.ring.put(self.given, &bytes[..count]);
        self.given += count as u64;
        count
    }

    pub fn finish(&mut self) {
        self.closed = true;
    }

    /// Whether an ACK may be accepted; refuses with 7.
    #[inline]
    pub fn judge(&self, ack: &Header) -> Result<(), Refusal> {
        if ack.position > self.next { Err(Refusal(7)) } else { Ok(()) }
    }

    /// Drops the segments that end at or below an ACK's position, and raises the limit.
    #[inline]
    pub fn acknowledge(&mut self, ack: &Header) {
        while self.kept > 0 && self.segments[self.first].to <= ack.position {
            self.acked = self.segments[self.first].to;
            self.first = (self.first + 1) % SEGMENTS;
            self.kept -= 1;
        }
        let limit = ack.position + u64::from(ack.credit);
        if limit > self.limit {
            self.limit = limit;
            self.probed = None;
        }
    }

    /// What the sending side sends in tick `now`: what is due again, what is new, a PROBE.
    #[inline]
    pub fn tick<const FAULT: u8>(&mut self, now: u64, interval: u64, out: &mut Output) {
        self.resend(now, interval, out);
        while self.kept < SEGMENTS && out.room() && self.cut(now, out) {}
        if FAULT != fault::NO_PROBE {
            self.probe(now, interval, out);
        }
    }

    /// Sends again, oldest first, each segment last sent `interval` ticks ago or more.
    fn resend(&mut self, now: u64, interval: u64, out: &mut Output) {
        let mut from = self.acked;
        for age in 0..self.kept {
            let Segment { to, at } = self.segments[(self.first + age) % SEGMENTS];
            if now - at >= interval {
                if !out.room() {
                    return;
                }
                self.send(from, to, out);
                self.segments[(self.first + age) % SEGMENTS].at = now;
            }
            from = to;
        }
    }

    /// Cuts the next segment and sends it, if there is one.
    fn cut(&mut self, now: u64, out: &mut Output) -> bool {
        let unsent = self.given.saturating_sub(self.next);
        let count = unsent.min(self.limit.saturating_sub(self.next)).min(PAYLOAD as u64);
        let end = self.closed && self.next + count == self.given;
        if count == 0 && !end {
            return false;
        }
        let to = self.next + count + u64::from(end);
        self.send(self.next, to, out);
        self.segments[(self.first + self.kept) % SEGMENTS] = Segment { to, at: now };
        self.kept += 1;
        self.next = to;
        true
    }

    /// Sends the segment from `from` to `to` under a new number.
    fn send(&self, from: u64, to: u64, out: &mut Output) {
        let end = to > self.given;
        let length = (to - from - u64::from(end)) as usize;
        let payload = out.send(Kind::Data, end, length, from, 0);
        self.ring.get(from, payload);
    }

    /// Asks for an ACK where bytes wait, nothing is kept and there is no room.
    fn probe(&mut self, now: u64, interval: u64, out: &mut Output) {
        let waits = self.given > self.next && self.kept == 0 && self.limit <= self.next;
        let due = self.probed.is_none_or(|at| now - at >= interval);
        if waits && due && out.room() {
            out.send(Kind::Probe, false, 0, self.next, 0);
            self.probed = Some(now);
        }
    }
}
