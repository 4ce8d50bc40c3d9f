//! The packed counters of a grid at K from 1 to 3: sets of rows and columns to bits and back, without a loop over counters.

use super::bytes::{load, store, store_up_to_8};

/// Every second bit, from the lowest.
const EVEN: u64 = 0x5555_5555_5555_5555;

/// Moves the 32 low bits of a word to its even places.
#[inline(always)]
pub fn spread(word: u64) -> u64 {
    let mut word = word & 0xffff_ffff;
    word = (word | word << 16) & 0x0000_ffff_0000_ffff;
    word = (word | word << 8) & 0x00ff_00ff_00ff_00ff;
    word = (word | word << 4) & 0x0f0f_0f0f_0f0f_0f0f;
    word = (word | word << 2) & 0x3333_3333_3333_3333;
    (word | word << 1) & EVEN
}

/// Moves the bits at the even places of a word to its 32 low bits.
#[inline(always)]
fn gather(word: u64) -> u64 {
    let mut word = word & EVEN;
    word = (word | word >> 1) & 0x3333_3333_3333_3333;
    word = (word | word >> 2) & 0x0f0f_0f0f_0f0f_0f0f;
    word = (word | word >> 4) & 0x00ff_00ff_00ff_00ff;
    word = (word | word >> 8) & 0x0000_ffff_0000_ffff;
    (word | word >> 16) & 0xffff_ffff
}

/// The bytes that the counters take.
#[inline(always)]
pub fn bytes_of(rows: usize, columns: usize, k: usize) -> usize {
    let bits = (rows + columns) << usize::from(k > 1);
    (bits + 7) >> 3
}

/// Whether a spare bit of counters of the right length is 1.
#[inline(always)]
pub fn has_spare(rows: usize, columns: usize, k: usize, packed: &[u8]) -> bool {
    let bits = (rows + columns) << usize::from(k > 1);
    let last = packed.last().copied().map_or(0, u32::from);
    // The last byte has one to eight used bits.
    last >> (((bits + 7) & 7) + 1) != 0
}

/// Stores counters that are all 0.
#[inline(always)]
pub fn store_zeros(packed: &mut [u8]) {
    let (first, second) = packed.split_at_mut(packed.len().min(16));
    store(first, 0);
    store(second, 0);
}

/// Stores counters of one bit: 1 for the rows and columns in these sets.
#[inline(always)]
pub fn store_single(rows: usize, row_set: u64, column_set: u64, packed: &mut [u8]) {
    store(packed, u128::from(row_set) | u128::from(column_set) << rows);
}

/// Stores counters of two bits, given the sets of those whose low and whose high bit is 1; each a row set and a column set.
#[inline(always)]
pub fn store_double(rows: usize, low: [u64; 2], high: [u64; 2], packed: &mut [u8]) {
    let mut low = u128::from(low[0]) | u128::from(low[1]) << rows;
    let mut high = u128::from(high[0]) | u128::from(high[1]) << rows;
    for eight in packed.chunks_mut(8) {
        store_up_to_8(eight, spread(low as u64) | spread(high as u64) << 1);
        low >>= 32;
        high >>= 32;
    }
}

/// The row set and the column set of counters of one bit whose spare bits are 0.
#[inline(always)]
pub fn load_single(rows: usize, packed: &[u8]) -> (u64, u64) {
    let both = load(packed);
    // Rows are at least 1, so the shift is in range.
    (both as u64 & u64::MAX >> (64 - rows), (both >> rows) as u64)
}

/// The counters of two bits as they stand, 32 to a word: rows, then columns.
#[inline(always)]
pub fn load_double(packed: &[u8]) -> [u64; 4] {
    let (first, second) = packed.split_at(packed.len().min(16));
    let (first, second) = (load(first), load(second));
    [
        first as u64,
        (first >> 64) as u64,
        second as u64,
        (second >> 64) as u64,
    ]
}

/// The counters of a word that are 3, each a bit at its even place.
#[inline(always)]
fn threes(word: u64) -> u64 {
    word & word >> 1 & EVEN
}

/// Whether one of these counters is 3.
#[inline(always)]
pub fn has_three(words: [u64; 4]) -> bool {
    words.iter().fold(0, |found, word| found | threes(*word)) != 0
}

/// The index of the first 3 among packed counters that have one: they stand in the order of their indices. It loads
/// them again, so that a call that is not refused has all its registers.
#[cold]
#[inline(never)]
pub fn first_three(packed: &[u8]) -> usize {
    let [first, second, third, fourth] = load_double(packed).map(threes);
    let lower = u128::from(first) | u128::from(second) << 64;
    let upper = u128::from(third) | u128::from(fourth) << 64;
    let bit = if lower == 0 {
        128 + upper.trailing_zeros()
    } else {
        lower.trailing_zeros()
    };
    bit as usize / 2
}

/// The greatest of these counters.
#[inline(always)]
pub fn greatest(words: [u64; 4]) -> usize {
    let all = words.iter().fold(0, |all, word| all | word);
    let low = usize::from(all & EVEN != 0);
    let high = usize::from(all >> 1 & EVEN != 0);
    // Without a 3, a low bit is that of a 1, which counts only where there is no 2.
    high << 1 | low & !high | usize::from(has_three(words))
}

/// The sets of columns whose low and whose high bit is 1.
#[inline(always)]
pub fn column_sets(rows: usize, columns: usize, words: [u64; 4]) -> (u64, u64) {
    let first = u128::from(words[0]) | u128::from(words[1]) << 64;
    let second = u128::from(words[2]) | u128::from(words[3]) << 64;
    let both = if rows == 64 {
        second
    } else {
        first >> (2 * rows) | second << (128 - 2 * rows)
    };
    let (mut low, mut high) = (gather(both as u64), gather(both as u64 >> 1));
    if columns > 32 {
        let upper = (both >> 64) as u64;
        low |= gather(upper) << 32;
        high |= gather(upper >> 1) << 32;
    }
    (low, high)
}

/// The rows whose counter is not 0, 32 to a word, each a bit at its even place.
#[inline(always)]
pub fn inverted_rows(rows: usize, words: [u64; 4]) -> [u64; 2] {
    // Counters of columns stand past those of the rows.
    let of_rows = u128::MAX >> (128 - 2 * rows);
    [
        (words[0] | words[0] >> 1) & EVEN & of_rows as u64,
        (words[1] | words[1] >> 1) & EVEN & (of_rows >> 64) as u64,
    ]
}

#[cfg(test)]
mod tests {
    use super::{first_three, gather, greatest, spread, EVEN};

    #[test]
    fn bits_are_spread_and_gathered() {
        for bit in 0..32 {
            assert_eq!(spread(1 << bit), 1 << (2 * bit));
            assert_eq!(gather(1 << (2 * bit)), 1 << bit);
            assert_eq!(gather(1 << (2 * bit + 1)), 0);
        }
        assert_eq!(gather(spread(0xdead_beef)), 0xdead_beef);
    }

    #[test]
    fn the_greatest_counter_is_found_wherever_it_stands() {
        assert_eq!(greatest([0; 4]), 0);
        for place in 0..128 {
            for counter in 1..=3 {
                for others in 0..=counter {
                    let mut words = [EVEN * others; 4];
                    words[place / 32] &= !(3 << (2 * place % 64));
                    words[place / 32] |= counter << (2 * place % 64);
                    assert_eq!(greatest(words), counter as usize);
                }
            }
        }
        assert_eq!(greatest([1, 2, 0, 0]), 2);
    }
    #[test]
    fn the_first_three_is_found_wherever_it_stands() {
        for place in 0..128 {
            for others in 0..=2 {
                let mut words = [EVEN * others; 4];
                words[place / 32] |= 3 << (2 * place % 64);
                assert_eq!(first_three(&words.map(u64::to_le_bytes).concat()), place);
                // What stands after it is of no account.
                words[3] |= 3 << 62;
                assert_eq!(first_three(&words.map(u64::to_le_bytes).concat()), place);
            }
        }
    }
}
