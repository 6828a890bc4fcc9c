//! The buffers that a host lends to an end (document 01, section 1), and their sizes.

/// Words of the table; written once, in include/sluicestream.h.
pub const TABLE_WORDS: usize = match usize::from_str_radix(env!("SLUICE_TABLE_WORDS"), 10) {
    Ok(words) => words,
    Err(_) => panic!("SLUICE_TABLE_WORDS is not a number"),
};
/// Bytes of each of the buffers outgoing, incoming and marks.
pub const RING: usize = 65_536;
/// Bytes of a datagram's header.
pub const HEADER: usize = 32;
/// The most bytes that a datagram has.
pub const DATAGRAM: usize = 1_056;
/// Bytes that tick asks for: 32 datagrams of 1,056 bytes.
pub const OUTPUT: usize = 33_792;

/// The four buffers of one end. Trials read and damage them; [`End`](crate::End) keeps them to itself.
#[derive(Clone, PartialEq, Eq)]
pub struct Lent {
    /// All that an end knows, save the bytes themselves; zeros before the first open.
    pub table: Box<[u64]>,
    /// What was given and isn't yet acknowledged.
    pub outgoing: Box<[u8]>,
    /// What has arrived and isn't yet taken.
    pub incoming: Box<[u8]>,
    /// Which of those bytes have arrived.
    pub marks: Box<[u8]>,
}

impl Lent {
    /// Buffers of exactly the sizes asked for, filled with zeros.
    pub fn new() -> Lent {
        Lent {
            table: vec![0; TABLE_WORDS].into_boxed_slice(),
            outgoing: vec![0; RING].into_boxed_slice(),
            incoming: vec![0; RING].into_boxed_slice(),
            marks: vec![0; RING].into_boxed_slice(),
        }
    }
}

impl Default for Lent {
    fn default() -> Lent {
        Lent::new()
    }
}
