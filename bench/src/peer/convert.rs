//! The peer's conversion of counters to a larger K: a word at a time, from one width to another.

use super::bytes::{copy, load, load_up_to_8, store, store_three, store_up_to_8};
use super::counters::{has_three, load_double, spread};
use super::grid::first_bad;
use super::planes::{places_to_words, to_places};
use super::wide;
use crate::answers::GridConvertAnswer;

/// The lower half of a word.
const LOW_HALF: u64 = 0xffff_ffff;

/// The bits of a counter at K.
#[inline(always)]
pub fn width_of(k: usize) -> usize {
    1 + usize::from(k > 1) + usize::from(k > 3)
}

/// Moves 64 counters of one bit apart.
#[inline(always)]
fn all_spread(counters: u64) -> u128 {
    u128::from(spread(counters & LOW_HALF)) | u128::from(spread(counters >> 32)) << 64
}

/// Makes counters of two bits of so many of one: of up to 32, or 64 at a time.
#[inline(always)]
fn one_to_two(count: usize, counters: &[u8], out: &mut [u8]) {
    let both = load(counters);
    if count <= 32 {
        store_up_to_8(out, spread(both as u64));
        return;
    }
    let (first, rest) = out.split_at_mut(out.len().min(16));
    store(first, all_spread(both as u64));
    if !rest.is_empty() {
        store(rest, all_spread((both >> 64) as u64));
    }
}

/// Makes counters of three bits of so many of one, 64 to three words; up to 21 take one word.
#[inline(always)]
fn one_to_three(count: usize, counters: &[u8], out: &mut [u8]) {
    let both = load(counters);
    if count <= 21 {
        store_up_to_8(out, to_places(count, both as u64));
        return;
    }
    let (first, rest) = out.split_at_mut(out.len().min(24));
    store_three(first, places_to_words(to_places(64, both as u64)));
    if !rest.is_empty() {
        let places = to_places(64, (both >> 64) as u64);
        store_three(rest, places_to_words(places));
    }
}

/// Moves sixteen counters of two bits, in 32 bits, apart to three bits each: half of them, then half of each half.
#[inline(always)]
fn widened(word: u64) -> u64 {
    let mut word = word & 0xffff | (word & 0xffff_0000) << 8;
    word = word & 0x0000_0000_ff00_00ff | (word & 0x0000_00ff_0000_ff00) << 4;
    word = word & 0x0000_00f0_0f00_f00f | (word & 0x0000_0f00_f00f_00f0) << 2;
    // What goes up by one place is added to itself.
    word + (word & 0x0000_30c3_0c30_c30c)
}

/// Moves 64 counters of two bits apart.
#[inline(always)]
fn all_widened(counters: u128) -> [u64; 3] {
    let [a, b, c, d] = [0, 32, 64, 96].map(|start| widened((counters >> start) as u64 & LOW_HALF));
    [a | b << 48, b >> 16 | c << 32, c >> 32 | d << 16]
}

/// Makes counters of three bits of so many of two: of up to 16 or 32, or 64 at a time.
#[inline(always)]
fn two_to_three(count: usize, counters: &[u8], out: &mut [u8]) {
    if count <= 16 {
        store_up_to_8(out, widened(load_up_to_8(counters)));
    } else if count <= 32 {
        let word = load_up_to_8(counters);
        let upper = u128::from(widened(word >> 32)) << 48;
        store(out, u128::from(widened(word & LOW_HALF)) | upper);
    } else {
        let (first, rest) = counters.split_at(counters.len().min(16));
        let (of_first, of_rest) = out.split_at_mut(out.len().min(24));
        store_three(of_first, all_widened(load(first)));
        if !of_rest.is_empty() {
            store_three(of_rest, all_widened(load(rest)));
        }
    }
}

/// A conversion but for the index: the number.
#[inline(never)]
fn convert_number(
    rows: usize,
    columns: usize,
    k: usize,
    to: usize,
    counters: &[u8],
    out: &mut [u8],
) -> usize {
    let outside = (rows.wrapping_sub(1) | columns.wrapping_sub(1)) > 63;
    if outside || k.wrapping_sub(1) > 6 || to > 7 || to < k {
        return 1;
    }
    let count = rows + columns;
    let (width, target) = (width_of(k), width_of(to));
    let bits = width * count;
    if counters.len() != (bits + 7) >> 3 || out.len() != (target * count + 7) >> 3 {
        return 2;
    }
    let last = counters.last().copied().map_or(0, u32::from);
    // The last byte has one to eight used bits.
    if last >> (((bits + 7) & 7) + 1) != 0 {
        return 3;
    }
    let is_bad = match k {
        2 => has_three(load_double(counters)),
        4..=6 => wide::load(counters).has_above(k),
        _ => false,
    };
    if is_bad {
        return 4;
    }
    if width == target {
        copy(counters, out);
    } else if target == 2 {
        one_to_two(count, counters, out);
    } else if width == 1 {
        one_to_three(count, counters, out);
    } else {
        two_to_three(count, counters, out);
    }
    0
}

/// The grid convert of document 02. The index is looked for afterwards, as for a read.
#[inline(always)]
pub fn convert(
    rows: usize,
    columns: usize,
    k: usize,
    to: usize,
    counters: &[u8],
    out: &mut [u8],
) -> GridConvertAnswer {
    let number = convert_number(rows, columns, k, to, counters, out);
    let index = if number == 4 {
        first_bad(k, counters)
    } else {
        0
    };
    GridConvertAnswer { number, index }
}
