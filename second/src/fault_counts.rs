//! The stuck cells of a block: all of them, and apart those that are wrong and those that are right for the data
//! (document 02, A9). Each count is taken by itself, cell by cell.

use crate::bits::bit_of_word;

/// F: the number of ones in the mask words.
pub fn stuck_cells(mask: &[u64]) -> usize {
    let mut stuck = 0;
    for word in mask {
        for bit in 0..64 {
            if bit_of_word(*word, bit) {
                stuck += 1;
            }
        }
    }
    stuck
}

/// The wrong ones: stuck cells whose stuck value is not their data bit.
pub fn wrong_cells(columns: usize, data: &[u64], mask: &[u64], values: &[u64]) -> usize {
    let mut wrong = 0;
    for row in 0..data.len() {
        for column in 0..columns {
            let is_stuck = bit_of_word(mask[row], column);
            if is_stuck && bit_of_word(values[row], column) != bit_of_word(data[row], column) {
                wrong += 1;
            }
        }
    }
    wrong
}

/// The right ones: stuck cells whose stuck value is their data bit.
pub fn right_cells(columns: usize, data: &[u64], mask: &[u64], values: &[u64]) -> usize {
    let mut right = 0;
    for row in 0..data.len() {
        for column in 0..columns {
            let is_stuck = bit_of_word(mask[row], column);
            if is_stuck && bit_of_word(values[row], column) == bit_of_word(data[row], column) {
                right += 1;
            }
        }
    }
    right
}
