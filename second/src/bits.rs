//! Single bits of packed bytes and of grid words, numbered as document 01 numbers them.

/// The bit at a position of packed bytes: bit p is bit p mod 8 of byte p / 8, lowest first.
pub fn bit_of_bytes(bytes: &[u8], position: usize) -> bool {
    (bytes[position / 8] >> (position % 8)) & 1 == 1
}

/// Gives the bit at a position of packed bytes a value and leaves every other bit.
pub fn set_bit_of_bytes(bytes: &mut [u8], position: usize, value: bool) {
    let weight = 1u8 << (position % 8);
    if value {
        bytes[position / 8] |= weight;
    } else {
        bytes[position / 8] &= !weight;
    }
}

/// The fewest bytes that hold so many bits.
pub fn bytes_that_hold(bits: usize) -> usize {
    if bits.is_multiple_of(8) {
        bits / 8
    } else {
        bits / 8 + 1
    }
}

/// Whether a bit from position `used` on, up to the end of the last byte, is 1: a spare bit that is set.
pub fn has_spare_bit(bytes: &[u8], used: usize) -> bool {
    (used..bytes.len() * 8).any(|position| bit_of_bytes(bytes, position))
}

/// The bit of a grid word that is the given column.
pub fn bit_of_word(word: u64, column: usize) -> bool {
    (word >> column) & 1 == 1
}

/// Whether one of the words has a bit past the last column.
pub fn has_bit_past(words: &[u64], columns: usize) -> bool {
    words
        .iter()
        .any(|word| (columns..64).any(|column| bit_of_word(*word, column)))
}

/// The grid word whose bits are the given cells of a row, with zeros past the last column.
pub fn word_of(cells: &[bool]) -> u64 {
    let mut word = 0;
    for (column, cell) in cells.iter().enumerate() {
        if *cell {
            word |= 1u64 << column;
        }
    }
    word
}
