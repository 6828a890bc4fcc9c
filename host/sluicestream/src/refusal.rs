//! Refusals in words (document 01, section 3).

use std::error::Error;
use std::fmt;

/// Why a call was refused. A refused call has changed nothing.
#[derive(Clone, Copy, Debug, PartialEq, Eq, Hash)]
#[repr(u8)]
pub enum Refusal {
    /// Shorter than 32 bytes, or not as long as its length field says.
    Length = 1,
    /// Unknown kind, or a flag or field that is not allowed.
    Form = 2,
    /// Another epoch.
    Epoch = 3,
    /// Number 0.
    NumberZero = 4,
    /// Number 1,024 or more behind the highest accepted.
    TooOld = 5,
    /// Number taken before.
    Taken = 6,
    /// ACK with a position above what was ever sent.
    NeverSent = 7,
    /// DATA beyond the credit that was granted, or at 2^62 or above.
    Credit = 8,
    /// DATA at odds with the END, or an END at odds with what has arrived.
    End = 9,
    /// open with an interval of 0 or above 65,535.
    Interval = 10,
    /// A lent buffer or table that is too short.
    Short = 11,
    /// An end that was never opened.
    NotOpen = 12,
    /// tick with an output buffer below 33,792 bytes.
    Output = 13,
}

impl Refusal {
    /// Every refusal, in the order of their numbers.
    pub const ALL: [Refusal; 13] = [
        Refusal::Length,
        Refusal::Form,
        Refusal::Epoch,
        Refusal::NumberZero,
        Refusal::TooOld,
        Refusal::Taken,
        Refusal::NeverSent,
        Refusal::Credit,
        Refusal::End,
        Refusal::Interval,
        Refusal::Short,
        Refusal::NotOpen,
        Refusal::Output,
    ];

    /// The number that the documents give it, 1 to 13.
    pub fn number(self) -> u8 {
        self as u8
    }

    /// The refusal with this number.
    pub fn from_number(number: u8) -> Option<Refusal> {
        Refusal::ALL.get(usize::from(number).checked_sub(1)?).copied()
    }

    /// Reads an answer of the C interface: a value, or the negative of a refusal's number.
    pub fn from_answer(answer: i64) -> Result<usize, Refusal> {
        match usize::try_from(answer) {
            Ok(value) => Ok(value),
            Err(_) => {
                let number = u8::try_from(answer.unsigned_abs()).ok();
                Err(number.and_then(Refusal::from_number).expect("an answer is a value or a refusal, -1 to -13"))
            }
        }
    }
}

impl fmt::Display for Refusal {
    fn fmt(&self, f: &mut fmt::Formatter<'_>) -> fmt::Result {
        f.write_str(match self {
            Refusal::Length => "datagram shorter than 32 bytes or not as long as its length field says (1)",
            Refusal::Form => "datagram of an unknown kind or with a flag or field that is not allowed (2)",
            Refusal::Epoch => "datagram of another epoch (3)",
            Refusal::NumberZero => "datagram with number 0 (4)",
            Refusal::TooOld => "datagram with a number too old to tell (5)",
            Refusal::Taken => "datagram with a number taken before (6)",
            Refusal::NeverSent => "ACK for a position that was never sent (7)",
            Refusal::Credit => "DATA beyond the credit that was granted (8)",
            Refusal::End => "DATA at odds with the stream's END (9)",
            Refusal::Interval => "resend interval of 0 or above 65,535 ticks (10)",
            Refusal::Short => "lent buffer or table that is too short (11)",
            Refusal::NotOpen => "end that was never opened (12)",
            Refusal::Output => "output buffer below 33,792 bytes (13)",
        })
    }
}

impl Error for Refusal {}
