//! Faults that can be planted in an end: the wrong ends of document 01, section 7.
//!
//! A fault is a constant of the type [`EndWith`](crate::EndWith), so an end without one pays nothing for it.

/// No fault: the end of the documents.
pub const NONE: u8 = 0;
/// ACKs tell the highest position seen, not the lowest missing one.
pub const ACK_HIGHEST: u8 = 1;
/// The window moves for a datagram that is then refused with 7, 8 or 9.
pub const WINDOW_MOVED_FIRST: u8 = 2;
/// `p + 1,024 > h` tested the wrong way round.
pub const WINDOW_REVERSED: u8 = 3;
/// `h - p` computed, and wrapped round, for `p > h`.
pub const WINDOW_WRAPPED: u8 = 4;
/// END reported when its datagram has come but a byte before it has not.
pub const END_EARLY: u8 = 5;
/// A byte delivered twice because two datagrams overlap.
pub const DELIVERED_TWICE: u8 = 6;
/// PROBEs are left out.
pub const NO_PROBE: u8 = 7;
/// What brings nothing new is answered no more, so a lost ACK is never sent again.
pub const ANSWERED_ONCE: u8 = 8;

/// Every planted fault, with its name.
pub const ALL: [(u8, &str); 8] = [
    (ACK_HIGHEST, "an ACK for the highest position seen"),
    (WINDOW_MOVED_FIRST, "the window moved for a refused datagram"),
    (WINDOW_REVERSED, "p + 1,024 > h the wrong way round"),
    (WINDOW_WRAPPED, "h - p computed for p > h"),
    (END_EARLY, "END reported before every byte has come"),
    (DELIVERED_TWICE, "a byte delivered twice on overlap"),
    (NO_PROBE, "a PROBE left out"),
    (ANSWERED_ONCE, "a lost ACK never sent again"),
];
