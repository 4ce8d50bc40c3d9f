//! What grid calls judge once their numbers are in range: lengths, bits past the last column, spare bits and counters
//! (document 01, "Numbered refusals"), and which counter is the first above K (document 02, A4).

use crate::bits::{bytes_that_hold, has_bit_past, has_spare_bit};
use crate::counters::{counter_bits, first_counter_above, unpacked_counters, Counters, Shape};

/// Why a grid call is refused: the number, and with number 4 the index of the first counter above K, else 0.
#[derive(Clone, Copy, Debug, PartialEq, Eq)]
pub struct Refusal {
    pub number: u8,
    pub index: usize,
}

impl From<u8> for Refusal {
    /// A refusal that is not for a counter.
    fn from(number: u8) -> Refusal {
        Refusal { number, index: 0 }
    }
}

/// Refusal 2: a buffer of words has not one word a row, or the counters have not the bytes that hold them.
pub fn judge_lengths(shape: Shape, words: &[usize], counters: usize) -> Result<(), u8> {
    if words.iter().any(|length| *length != shape.rows) {
        return Err(2);
    }
    if counters != bytes_that_hold(counter_bits(shape)) {
        return Err(2);
    }
    Ok(())
}

/// Refusal 3: a word that is read has a bit past the last column.
pub fn judge_words(shape: Shape, buffers: &[&[u64]]) -> Result<(), u8> {
    if buffers
        .iter()
        .any(|words| has_bit_past(words, shape.columns))
    {
        return Err(3);
    }
    Ok(())
}

/// The counters of a buffer of the right length, or refusal 3 for a spare bit, or refusal 4 with the index of the first
/// counter above K.
pub fn judged_counters(shape: Shape, packed: &[u8]) -> Result<Counters, Refusal> {
    if has_spare_bit(packed, counter_bits(shape)) {
        return Err(Refusal::from(3));
    }
    let counters = unpacked_counters(shape, packed);
    match first_counter_above(&counters, shape.most_levels) {
        Some(index) => Err(Refusal { number: 4, index }),
        None => Ok(counters),
    }
}
