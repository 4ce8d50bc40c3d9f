//! The peer's grid blocks at K from 4 to 7, with counters of three bits: the plan, the store and the read.

use super::block::{accepted, has_bit_past, masked_faults};
use super::levels::{levels_of, Block};
use super::planes::{counter_at, place_of, row_at, Planes};
use super::wide::{self, bytes_of, first_above, has_spare};
use crate::answers::{Figures, GridAnswer};

/// Whether rows, columns or K, which is 4 or more, lie outside their range; 0 wraps round to the largest number.
#[inline(always)]
fn outside(rows: usize, columns: usize, k: usize) -> bool {
    (rows.wrapping_sub(1) | columns.wrapping_sub(1)) > 63 || k > 7
}

/// The grid plan of documents 01 and 02.
#[inline(never)]
pub fn plan(
    rows: usize,
    columns: usize,
    k: usize,
    data: &[u64],
    mask: &[u64],
    values: &[u64],
    counters: &mut [u8],
) -> GridAnswer {
    if outside(rows, columns, k) {
        return GridAnswer::refused(1);
    }
    let lengths_differ = data.len() != rows
        || mask.len() != rows
        || values.len() != rows
        || counters.len() != bytes_of(rows, columns);
    if lengths_differ {
        return GridAnswer::refused(2);
    }
    let block = Block { data, mask, values };
    if has_bit_past(columns, block) {
        return GridAnswer::refused(3);
    }
    let Some(levels) = levels_of::<7>(k, block) else {
        return GridAnswer::refused(7);
    };
    let count = levels.count();
    if count == 0 {
        wide::store_zeros(counters);
    } else {
        // Each level is within the one before: a counter is the last level that has its row or column.
        let sets = &levels.sets;
        let low = [0, 1].map(|list| sets.iter().fold(0, |low, set| low ^ set[list]));
        let middle = [0, 1].map(|list| sets[1][list] ^ sets[3][list] ^ sets[5][list]);
        wide::store(rows, columns, count, [low, middle, sets[3]], counters);
    }
    accepted(count, levels.stuck)
}

/// Inverts in each of these rows what its counter asks for.
#[inline(always)]
fn invert(of_rows: Planes, inverted: [u64; 8], words: &mut [u64]) {
    let mut rest = any_of(of_rows);
    while rest != 0 {
        let place = rest.trailing_zeros() as usize;
        words[row_at(place)] ^= inverted[counter_at(of_rows, place)];
        rest &= rest - 1;
    }
}

/// The counters that are not 0, each at its place.
#[inline(always)]
fn any_of([low, middle, high]: Planes) -> u64 {
    low | middle | high
}

/// The grid store of document 02. Where every stuck cell reads as its data bit, it holds the data inverted as a sound one
/// would: the cells need no mask.
#[inline(never)]
#[allow(clippy::too_many_arguments)]
pub fn store(
    rows: usize,
    columns: usize,
    k: usize,
    data: &[u64],
    mask: &[u64],
    values: &[u64],
    counters: &[u8],
    cells: &mut [u64],
) -> GridAnswer {
    if outside(rows, columns, k) {
        return GridAnswer::refused(1);
    }
    let lengths_differ = data.len() != rows
        || mask.len() != rows
        || values.len() != rows
        || cells.len() != rows
        || counters.len() != bytes_of(rows, columns);
    if lengths_differ {
        return GridAnswer::refused(2);
    }
    let block = Block { data, mask, values };
    if has_bit_past(columns, block) || has_spare(rows, columns, counters) {
        return GridAnswer::refused(3);
    }
    let loaded = wide::load(counters);
    if k < 7 && loaded.has_above(k) {
        let index = first_above(k, counters);
        return GridAnswer {
            index,
            ..GridAnswer::refused(4)
        };
    }
    let of_rows = loaded.of_rows(rows);
    let inverted = if any_of(of_rows) == 0 {
        [0; 8]
    } else {
        loaded.inverted(rows, columns)
    };
    let of_row = |row: usize| inverted[counter_at(of_rows, place_of(row))];
    let Some(stuck) = masked_faults(block, of_row) else {
        return GridAnswer::refused(13);
    };
    cells.copy_from_slice(data);
    invert(of_rows, inverted, cells);
    accepted(loaded.greatest(), stuck)
}

/// A grid read but for the index: the number.
#[inline(never)]
pub fn read_number(
    rows: usize,
    columns: usize,
    k: usize,
    cells: &[u64],
    counters: &[u8],
    out: &mut [u64],
) -> usize {
    if outside(rows, columns, k) {
        return 1;
    }
    let lengths_differ =
        cells.len() != rows || out.len() != rows || counters.len() != bytes_of(rows, columns);
    if lengths_differ {
        return 2;
    }
    if columns < 64 && cells.iter().fold(0, |all, word| all | word) >> columns != 0 {
        return 3;
    }
    if has_spare(rows, columns, counters) {
        return 3;
    }
    let loaded = wide::load(counters);
    if k < 7 && loaded.has_above(k) {
        return 4;
    }
    out.copy_from_slice(cells);
    let of_rows = loaded.of_rows(rows);
    if any_of(of_rows) != 0 {
        invert(of_rows, loaded.inverted(rows, columns), out);
    }
    0
}
