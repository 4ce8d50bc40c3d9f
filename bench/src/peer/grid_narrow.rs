//! The peer's grid blocks at K from 1 to 3: the plan, the store and the read.

use super::block::{accepted, has_bit_past, masked_faults};
use super::counters::{
    bytes_of, column_sets, first_three, greatest, has_spare, has_three, inverted_rows, load_double,
    load_single, store_double, store_single, store_zeros,
};
use super::levels::{levels_of, Block};
use crate::answers::{Figures, GridAnswer};

/// Whether rows, columns or K lie outside their range; 0 wraps round to the largest number.
#[inline(always)]
fn outside(rows: usize, columns: usize, k: usize) -> bool {
    (rows.wrapping_sub(1) | columns.wrapping_sub(1)) > 63 || k.wrapping_sub(1) > 2
}

/// The grid plan of documents 01 and 02.
#[inline(never)]
pub fn plan(
    rows: usize,
    columns: usize,
    k: usize,
    data: &[u64],
    mask: &[u64],
    values: &[u64],
    counters: &mut [u8],
) -> GridAnswer {
    if outside(rows, columns, k) {
        return GridAnswer::refused(1);
    }
    let lengths_differ = data.len() != rows
        || mask.len() != rows
        || values.len() != rows
        || counters.len() != bytes_of(rows, columns, k);
    if lengths_differ {
        return GridAnswer::refused(2);
    }
    let block = Block { data, mask, values };
    if has_bit_past(columns, block) {
        return GridAnswer::refused(3);
    }
    let Some(levels) = levels_of::<3>(k, block) else {
        return GridAnswer::refused(7);
    };
    let [first, second, third] = levels.sets;
    if first[1] == 0 {
        store_zeros(counters);
    } else if k == 1 {
        store_single(rows, first[0], first[1], counters);
    } else {
        let low = [
            first[0] ^ second[0] ^ third[0],
            first[1] ^ second[1] ^ third[1],
        ];
        store_double(rows, low, second, counters);
    }
    accepted(levels.count(), levels.stuck)
}

/// Inverts the words of these rows at these columns.
#[inline(always)]
fn invert_single(row_set: u64, column_set: u64, words: &mut [u64]) {
    let mut rest = row_set;
    while rest != 0 {
        words[rest.trailing_zeros() as usize] ^= column_set;
        rest &= rest - 1;
    }
}

/// What a row of each counter inverts: the smaller of the two counters is odd.
#[inline(always)]
fn inverted_by(rows: usize, columns: usize, counters: [u64; 4]) -> [u64; 4] {
    let (low, high) = column_sets(rows, columns, counters);
    [0, low | high, low & !high, low]
}

/// Inverts in each of these rows, 32 to a word, what its counter asks for.
#[inline(always)]
fn invert_double(rows: [u64; 2], counters: [u64; 4], inverted: [u64; 4], words: &mut [u64]) {
    for (half, (mut rest, counters)) in words.chunks_mut(32).zip(rows.into_iter().zip(counters)) {
        while rest != 0 {
            let place = rest.trailing_zeros() as usize;
            half[place / 2] ^= inverted[(counters >> place & 3) as usize];
            rest &= rest - 1;
        }
    }
}

/// The grid store of document 02. Where every stuck cell reads as its data bit, it holds the data inverted as a sound one
/// would: the cells need no mask.
#[inline(never)]
#[allow(clippy::too_many_arguments)]
pub fn store(
    rows: usize,
    columns: usize,
    k: usize,
    data: &[u64],
    mask: &[u64],
    values: &[u64],
    counters: &[u8],
    cells: &mut [u64],
) -> GridAnswer {
    if outside(rows, columns, k) {
        return GridAnswer::refused(1);
    }
    let lengths_differ = data.len() != rows
        || mask.len() != rows
        || values.len() != rows
        || cells.len() != rows
        || counters.len() != bytes_of(rows, columns, k);
    if lengths_differ {
        return GridAnswer::refused(2);
    }
    let block = Block { data, mask, values };
    if has_bit_past(columns, block) || has_spare(rows, columns, k, counters) {
        return GridAnswer::refused(3);
    }
    if k == 1 {
        let (row_set, column_set) = load_single(rows, counters);
        let inverted = |row: usize| column_set & (row_set >> row & 1).wrapping_neg();
        let Some(stuck) = masked_faults(block, inverted) else {
            return GridAnswer::refused(13);
        };
        cells.copy_from_slice(data);
        invert_single(row_set, column_set, cells);
        return accepted(usize::from(row_set | column_set != 0), stuck);
    }
    let words = load_double(counters);
    if k == 2 && has_three(words) {
        let index = first_three(counters);
        return GridAnswer {
            index,
            ..GridAnswer::refused(4)
        };
    }
    let rows_inverted = inverted_rows(rows, words);
    let inverted = if rows_inverted == [0, 0] {
        [0; 4]
    } else {
        inverted_by(rows, columns, words)
    };
    let of_row = |row: usize| inverted[(words[row >> 5 & 1] >> ((2 * row) & 63) & 3) as usize];
    let Some(stuck) = masked_faults(block, of_row) else {
        return GridAnswer::refused(13);
    };
    cells.copy_from_slice(data);
    invert_double(rows_inverted, words, inverted, cells);
    accepted(greatest(words), stuck)
}

/// A grid read but for the index: the number.
#[inline(never)]
pub fn read_number(
    rows: usize,
    columns: usize,
    k: usize,
    cells: &[u64],
    counters: &[u8],
    out: &mut [u64],
) -> usize {
    if outside(rows, columns, k) {
        return 1;
    }
    let lengths_differ =
        cells.len() != rows || out.len() != rows || counters.len() != bytes_of(rows, columns, k);
    if lengths_differ {
        return 2;
    }
    if columns < 64 && cells.iter().fold(0, |all, word| all | word) >> columns != 0 {
        return 3;
    }
    if has_spare(rows, columns, k, counters) {
        return 3;
    }
    if k == 1 {
        let (row_set, column_set) = load_single(rows, counters);
        out.copy_from_slice(cells);
        invert_single(row_set, column_set, out);
        return 0;
    }
    let words = load_double(counters);
    if k == 2 && has_three(words) {
        return 4;
    }
    out.copy_from_slice(cells);
    let rows_inverted = inverted_rows(rows, words);
    if rows_inverted == [0, 0] {
        return 0;
    }
    let inverted = inverted_by(rows, columns, words);
    invert_double(rows_inverted, words, inverted, out);
    0
}
