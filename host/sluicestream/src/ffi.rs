//! The C interface of the proved end (include/sluicestream.h), as functions over slices: all that is unsafe.
//!
//! Each call is proved to end and to stay inside its buffers whatever they hold, so slices are all it takes
//! to call it safely. Each answer is a value, or the negative of a refusal's number.

#![allow(unsafe_code)]

unsafe extern "C" {
    fn sluice_open(
        table: *mut u64,
        table_words: usize,
        outgoing: *mut u8,
        outgoing_bytes: usize,
        incoming: *mut u8,
        incoming_bytes: usize,
        marks: *mut u8,
        marks_bytes: usize,
        epoch: u64,
        interval: u64,
    ) -> i64;
    fn sluice_give(
        table: *mut u64,
        table_words: usize,
        outgoing: *mut u8,
        outgoing_bytes: usize,
        bytes: *const u8,
        length: usize,
    ) -> i64;
    fn sluice_finish(table: *mut u64, table_words: usize) -> i64;
    fn sluice_datagram(
        table: *mut u64,
        table_words: usize,
        incoming: *mut u8,
        incoming_bytes: usize,
        marks: *mut u8,
        marks_bytes: usize,
        bytes: *const u8,
        length: usize,
    ) -> i64;
    fn sluice_take(
        table: *mut u64,
        table_words: usize,
        incoming: *mut u8,
        incoming_bytes: usize,
        out: *mut u8,
        length: usize,
        ended: *mut u8,
    ) -> i64;
    fn sluice_tick(
        table: *mut u64,
        table_words: usize,
        outgoing: *mut u8,
        outgoing_bytes: usize,
        out: *mut u8,
        out_bytes: usize,
    ) -> i64;
}

/// Makes a fresh end in the lent buffers.
pub fn open(
    table: &mut [u64],
    outgoing: &mut [u8],
    incoming: &mut [u8],
    marks: &mut [u8],
    epoch: u64,
    interval: u64,
) -> i64 {
    // SAFETY: pointers and lengths are those of live, separate slices.
    unsafe {
        sluice_open(
            table.as_mut_ptr(),
            table.len(),
            outgoing.as_mut_ptr(),
            outgoing.len(),
            incoming.as_mut_ptr(),
            incoming.len(),
            marks.as_mut_ptr(),
            marks.len(),
            epoch,
            interval,
        )
    }
}

/// Answers how many of the bytes were taken.
pub fn give(table: &mut [u64], outgoing: &mut [u8], bytes: &[u8]) -> i64 {
    // SAFETY: pointers and lengths are those of live, separate slices; bytes are only read.
    unsafe {
        sluice_give(table.as_mut_ptr(), table.len(), outgoing.as_mut_ptr(), outgoing.len(), bytes.as_ptr(), bytes.len())
    }
}

/// No more bytes will be given.
pub fn finish(table: &mut [u64]) -> i64 {
    // SAFETY: pointer and length are those of a live slice.
    unsafe { sluice_finish(table.as_mut_ptr(), table.len()) }
}

/// One datagram from the network.
pub fn datagram(table: &mut [u64], incoming: &mut [u8], marks: &mut [u8], bytes: &[u8]) -> i64 {
    // SAFETY: pointers and lengths are those of live, separate slices; bytes are only read.
    unsafe {
        sluice_datagram(
            table.as_mut_ptr(),
            table.len(),
            incoming.as_mut_ptr(),
            incoming.len(),
            marks.as_mut_ptr(),
            marks.len(),
            bytes.as_ptr(),
            bytes.len(),
        )
    }
}

/// Answers how many bytes were handed up, and sets `ended` to 1 or 0.
pub fn take(table: &mut [u64], incoming: &mut [u8], out: &mut [u8], ended: &mut u8) -> i64 {
    // SAFETY: pointers and lengths are those of live, separate slices.
    unsafe {
        sluice_take(
            table.as_mut_ptr(),
            table.len(),
            incoming.as_mut_ptr(),
            incoming.len(),
            out.as_mut_ptr(),
            out.len(),
            ended,
        )
    }
}

/// Answers how many bytes of datagrams were written to `out`.
pub fn tick(table: &mut [u64], outgoing: &mut [u8], out: &mut [u8]) -> i64 {
    // SAFETY: pointers and lengths are those of live, separate slices.
    unsafe {
        sluice_tick(table.as_mut_ptr(), table.len(), outgoing.as_mut_ptr(), outgoing.len(), out.as_mut_ptr(), out.len())
    }
}
