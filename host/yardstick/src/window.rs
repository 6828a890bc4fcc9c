//! Numbers, taken at most once (01, section 4), and refusals 4, 5 and 6.

use crate::fault;
use crate::refusal::Refusal;

/// How many of the last numbers are remembered.
const WINDOW: u64 = 1_024;
const WORDS: usize = (WINDOW / 64) as usize;

/// The highest number accepted, and which of the last 1,024 were.
#[derive(Clone)]
pub struct Window {
    highest: u64,
    marks: [u64; WORDS],
}

impl Window {
    pub fn new() -> Window {
        Window { highest: 0, marks: [0; WORDS] }
    }

    pub fn highest(&self) -> u64 {
        self.highest
    }

    /// Whether `number` is new; refuses with 4, 5 or 6.
    #[inline]
    pub fn judge<const FAULT: u8>(&self, number: u64) -> Result<(), Refusal> {
        if number == 0 {
            return Err(Refusal(4));
        }
        if FAULT == fault::WINDOW_WRAPPED {
            if self.highest.wrapping_sub(number) >= WINDOW {
                return Err(Refusal(5));
            }
        } else if number > self.highest {
            return Ok(());
        }
        let behind = self.highest.wrapping_sub(number);
        let old = if FAULT == fault::WINDOW_REVERSED { behind < WINDOW } else { behind >= WINDOW };
        if old {
            return Err(Refusal(5));
        }
        let (word, bit) = place(number);
        if self.marks[word] & bit != 0 {
            return Err(Refusal(6));
        }
        Ok(())
    }

    /// Accepts a new number.
    #[inline]
    pub fn accept(&mut self, number: u64) {
        if number > self.highest {
            self.pass(number);
            self.highest = number;
        }
        let (word, bit) = place(number);
        self.marks[word] |= bit;
    }

    /// Clears the marks of the numbers between the highest and `number`.
    fn pass(&mut self, number: u64) {
        if number - self.highest >= WINDOW {
            self.marks = [0; WORDS];
            return;
        }
        let mut next = self.highest + 1;
        while next < number {
            let count = (64 - next % 64).min(number - next);
            let ones = u64::MAX >> (64 - count);
            self.marks[place(next).0] &= !(ones << (next % 64));
            next += count;
        }
    }
}

/// The word and the bit of a number's mark.
#[inline]
fn place(number: u64) -> (usize, u64) {
    ((number % WINDOW / 64) as usize, 1 << (number % 64))
}
