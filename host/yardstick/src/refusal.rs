//! Refusals (01, section 3).

/// The number of a refusal, 1 to 10 here: 11 to 13 are about lent buffers, and this end owns its own.
#[derive(Clone, Copy, Debug, PartialEq, Eq)]
pub struct Refusal(pub u8);
