//! Bytes of a stream at their positions in a buffer of 65,536 (01, section 1).

/// Bytes that a ring holds, and how far beyond *taken* bytes are accepted.
pub const RING: usize = 65_536;

/// The byte of position p is at p % 65,536.
#[derive(Clone)]
pub struct Ring {
    bytes: Box<[u8]>,
}

impl Ring {
    pub fn new() -> Ring {
        Ring { bytes: vec![0; RING].into_boxed_slice() }
    }

    /// Puts `bytes` at `position` and after it, in two copies where they cross the seam.
    #[inline]
    pub fn put(&mut self, position: u64, bytes: &[u8]) {
        let at = place(position);
        if let Some(straight) = self.bytes.get_mut(at..at + bytes.len()) {
            straight.copy_from_slice(bytes);
        } else {
            let (first, second) = bytes.split_at(RING - at);
            self.bytes[at..].copy_from_slice(first);
            self.bytes[..second.len()].copy_from_slice(second);
        }
    }

    /// Fills `out` with the bytes from `position` on.
    #[inline]
    pub fn get(&self, position: u64, out: &mut [u8]) {
        let at = place(position);
        if let Some(straight) = self.bytes.get(at..at + out.len()) {
            out.copy_from_slice(straight);
        } else {
            let (first, second) = out.split_at_mut(RING - at);
            first.copy_from_slice(&self.bytes[at..]);
            second.copy_from_slice(&self.bytes[..second.len()]);
        }
    }
}

/// Where the byte of a position is.
#[inline]
fn place(position: u64) -> usize {
    (position % RING as u64) as usize
}
