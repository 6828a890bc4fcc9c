//! Memory between pages that nobody may touch: a step outside ends the process. All that is unsafe in here.

#![allow(unsafe_code)]

use std::cell::Cell;
use std::ffi::c_void;
use std::marker::PhantomData;
use std::sync::Once;
use std::{ptr, slice};

unsafe extern "C" {
    fn mmap(at: *mut c_void, length: usize, protection: i32, flags: i32, file: i32, offset: i64) -> *mut c_void;
    fn mprotect(at: *mut c_void, length: usize, protection: i32) -> i32;
    fn munmap(at: *mut c_void, length: usize) -> i32;
    fn signal(number: i32, handler: extern "C" fn(i32)) -> usize;
    fn write(file: i32, bytes: *const c_void, length: usize) -> isize;
    fn _exit(status: i32) -> !;
}

const PAGE: usize = 4_096;
/// Bytes on either side that nobody may touch: a wrong index steps far.
const GUARD: usize = 4_096 * PAGE;
const NOTHING: i32 = 0;
const READ_AND_WRITE: i32 = 1 | 2;
const PRIVATE_AND_ANONYMOUS: i32 = 0x02 | 0x20;
const SEGMENT_VIOLATION: i32 = 11;
const BUS_ERROR: i32 = 7;
const STANDARD_ERROR: i32 = 2;

thread_local! {
    /// The trial and the seed that this thread is at; the handler runs in the thread that stepped outside.
    static AT: Cell<(&'static str, u64)> = const { Cell::new(("", 0)) };
}

/// From now on a step outside, in this thread, says that it was this trial with this seed.
pub fn announce(trial: &'static str, seed: u64) {
    static HANDLED: Once = Once::new();
    AT.set((trial, seed));
    // SAFETY: the handler only reads what this thread has set, and calls write and _exit.
    HANDLED.call_once(|| unsafe {
        signal(SEGMENT_VIOLATION, stepped_outside);
        signal(BUS_ERROR, stepped_outside);
    });
}

/// Says how to repeat it and ends the process: after such a step nothing can be relied on.
extern "C" fn stepped_outside(_signal: i32) {
    let mut digits = [b'\n'; 21];
    let (trial, mut rest) = AT.get();
    let mut at = 20;
    loop {
        at -= 1;
        digits[at] = b'0' + (rest % 10) as u8;
        rest /= 10;
        if rest == 0 {
            break;
        }
    }
    let says = "a call stepped outside its buffers; repeat with: sluice drill --trial ";
    for text in [says.as_bytes(), trial.as_bytes(), b" --seed ", &digits[at..]] {
        // SAFETY: pointer and length are those of live memory; write is allowed in a handler.
        unsafe { write(STANDARD_ERROR, text.as_ptr().cast(), text.len()) };
    }
    // SAFETY: _exit is allowed in a handler and never returns.
    unsafe { _exit(139) }
}

/// Plain numbers: any bytes are one.
pub trait Plain: Copy {}
impl Plain for u8 {}
impl Plain for u64 {}

/// Which side of the memory lies at a page that nobody may touch.
#[derive(Clone, Copy, Debug, PartialEq, Eq)]
pub enum Side {
    /// The first element comes right after it.
    Front,
    /// The last element comes right before it.
    Back,
}

/// Memory for elements, the fenced side of it directly at a guard page.
pub struct Fenced<T: Plain> {
    base: *mut u8,
    mapped: usize,
    side: Side,
    length: usize,
    elements: PhantomData<T>,
}

impl<T: Plain> Fenced<T> {
    /// Zeros.
    pub fn new(length: usize, side: Side) -> Fenced<T> {
        let mapped = (length * size_of::<T>()).next_multiple_of(PAGE) + 2 * GUARD;
        // SAFETY: a fresh mapping of our own; only its inner pages are opened for reading and writing.
        let base = unsafe {
            let base = mmap(ptr::null_mut(), mapped, NOTHING, PRIVATE_AND_ANONYMOUS, -1, 0);
            assert!(base as isize != -1, "mmap");
            assert_eq!(mprotect(base.byte_add(GUARD), mapped - 2 * GUARD, READ_AND_WRITE), 0, "mprotect");
            base.cast()
        };
        Fenced { base, mapped, side, length, elements: PhantomData }
    }

    /// `count` elements at the fence.
    pub fn at_fence(&mut self, count: usize) -> &mut [T] {
        assert!(count <= self.length);
        let at = match self.side {
            Side::Front => GUARD,
            Side::Back => self.mapped - GUARD - count * size_of::<T>(),
        };
        // SAFETY: inside the inner pages, aligned since they are, alive and lent out once as long as self is.
        unsafe { slice::from_raw_parts_mut(self.base.add(at).cast(), count) }
    }

    /// All elements.
    pub fn all(&mut self) -> &mut [T] {
        self.at_fence(self.length)
    }
}

impl<T: Plain> Drop for Fenced<T> {
    fn drop(&mut self) {
        // SAFETY: the mapping that new made, which nobody else has.
        unsafe { munmap(self.base.cast(), self.mapped) };
    }
}
