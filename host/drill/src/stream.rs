//! The bytes that a host gives in trials: each is decided by its position.

use crate::random::mix;

/// A stream without end whose bytes can be told from their positions.
#[derive(Clone, Copy, Debug)]
pub struct Stream {
    seed: u64,
}

impl Stream {
    /// The stream of this seed.
    pub fn new(seed: u64) -> Stream {
        Stream { seed: mix(seed) }
    }

    /// Fills `out` with the bytes from `position` on.
    pub fn fill(&self, position: u64, out: &mut [u8]) {
        let mut at = position;
        let mut rest = out;
        while !rest.is_empty() {
            let word = mix(self.seed ^ (at / 8)).to_be_bytes();
            let skip = (at % 8) as usize;
            let count = rest.len().min(8 - skip);
            rest[..count].copy_from_slice(&word[skip..skip + count]);
            rest = &mut rest[count..];
            at += count as u64;
        }
    }

    /// Whether `bytes` are those from `position` on.
    pub fn has(&self, position: u64, bytes: &[u8]) -> bool {
        let mut at = position;
        let mut buffer = [0; 1_024];
        bytes.chunks(buffer.len()).all(|chunk| {
            self.fill(at, &mut buffer[..chunk.len()]);
            at += chunk.len() as u64;
            chunk == &buffer[..chunk.len()]
        })
    }
}
