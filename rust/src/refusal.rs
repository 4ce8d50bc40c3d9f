//! A call that was refused, its number by name and in words.
use crate::answers::Answer;
use std::error::Error;
use std::fmt;

/// n, the rows, the columns, K or the target lie outside their range.
pub const OUT_OF_RANGE: usize = 1;
/// A buffer is not exactly as long as it should be.
pub const WRONG_LENGTH: usize = 2;
/// A grid word has a bit past the last column, or a spare bit of metadata or counters is 1.
pub const BIT_PAST_END: usize = 3;
/// The metadata of a row is not well formed, or a counter is above K.
pub const MALFORMED: usize = 4;
/// Two active entries hold the same pointer.
pub const SAME_POINTER: usize = 5;
/// A row needs more entries than it has.
pub const NO_ENTRY_LEFT: usize = 6;
/// The faults of a block cannot be masked for this data.
pub const UNMASKABLE: usize = 7;
/// A block that arrives in lumps was finished before all its bytes were there.
pub const SHORT_BLOCK: usize = 8;
/// Since the start a lump would have made a block that arrives in lumps longer than it is.
pub const LONG_BLOCK: usize = 9;
/// By the counters that a store is lent, a stuck cell would read wrong.
pub const MISREAD: usize = 13;

/// A number in words, for a log or a display: those that `ernavluq_in_words` gives in C.
pub fn in_words(number: usize) -> &'static str {
    match number {
        0 => "accepted",
        OUT_OF_RANGE => "n, the rows, the columns, K or the target is out of its range",
        WRONG_LENGTH => "a buffer has not the length that it should have",
        BIT_PAST_END => "a bit past the last column is 1, or a spare bit of metadata or counters",
        MALFORMED => "the metadata is not well formed, or a counter is above K",
        SAME_POINTER => "two active entries hold the same pointer",
        NO_ENTRY_LEFT => "the row has too few entries for this data; other data may fit, or a row begun anew from zeros",
        UNMASKABLE => "K levels do not mask the stuck cells for this data; other data may fit, or a larger K",
        SHORT_BLOCK => "bytes of the block are missing",
        LONG_BLOCK => "since the start more bytes came than the block has",
        MISREAD => "by these counters a stuck cell would read wrong for this data",
        _ => "no number that a call answers",
    }
}

/// A call that was refused: the lowest refusal that applies; only the finish of a [`Transfer`](crate::Transfer) has an order of its own. No buffer was
/// altered.
#[derive(Clone, Copy, Debug, PartialEq, Eq)]
pub struct Refusal {
    /// The whole answer; every count in it is 0, and with any number but 4 the index too.
    pub answer: Answer,
}

impl Refusal {
    /// The number of the refusal.
    pub fn number(&self) -> usize {
        self.answer.number()
    }

    /// The index of the first counter above K, where a store, a read, a finish or a conversion was refused with [`MALFORMED`]. The rows' counters are counted
    /// first, from 0, and then the columns': of a block of `rows` rows an index below `rows` is that row, and any other is column `index - rows`.
    pub fn bad_counter(&self) -> Option<usize> {
        match self.answer {
            Answer::GridStore(answer) if answer.number == MALFORMED => Some(answer.index),
            Answer::GridRead(answer) if answer.number == MALFORMED => Some(answer.index),
            Answer::GridConvert(answer) if answer.number == MALFORMED => Some(answer.index),
            Answer::TransferFinish(answer) if answer.number == MALFORMED => Some(answer.index),
            _ => None,
        }
    }
}

impl fmt::Display for Refusal {
    fn fmt(&self, f: &mut fmt::Formatter<'_>) -> fmt::Result {
        if let Some(index) = self.bad_counter() {
            return write!(f, "refusal {MALFORMED}: counter {index} is above K");
        }
        let number = self.number();
        write!(f, "refusal {number}: {}", in_words(number))
    }
}

impl Error for Refusal {}
