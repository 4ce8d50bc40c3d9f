//! Damage to transfers: to the block before it is sent, to the numbers, and to the length of the output.

use crate::call::{GridRead, Transfer};
use crate::counters::MOST_LEVELS;
use crate::damage::{number_near_limit, number_outside, resize_words};
use crate::damage_counters::{most_of_numbers, raise_counters, set_spare_bits};
use crate::damage_grid::set_bits_past;
use crate::random::Random;

/// The greatest K of transfers.
const GREATEST: usize = MOST_LEVELS as usize;

/// Gives a block, which keeps its length, one kind of damage: bits past the last column, spare bits, or high counters.
pub fn damage_block(random: &mut Random, read: &mut GridRead) {
    match random.below(4) {
        0 | 1 => set_bits_past(random, read.numbers[1], &mut read.cells),
        2 => set_spare_bits(random, GREATEST, read.numbers, &mut read.counters),
        _ => raise_counters(random, GREATEST, read.numbers, &mut read.counters),
    }
}

/// Gives one of the numbers another value, mostly one out of range, or exchanges rows and columns.
pub fn damage_numbers(random: &mut Random, call: &mut Transfer) {
    let most = most_of_numbers(GREATEST);
    let place = random.below(3);
    let number = call.numbers[place];
    match random.below(20) {
        0..=13 => call.numbers[place] = number_outside(random, number, most[place]),
        14 | 15 => call.numbers[place] = number_near_limit(random, number, most[place]),
        16 | 17 => call.numbers.swap(0, 1),
        _ => call.numbers[2] = random.between(0, GREATEST + 1) as u64,
    }
}

/// Gives the output another length: a row less or more, a word a column, none, or any other.
pub fn damage_output(random: &mut Random, call: &mut Transfer) {
    let rows = call.output.len();
    let columns = call.numbers[1].min(64) as usize;
    let junk = random.word();
    match random.below(8) {
        0 | 1 => call.output.truncate(rows - 1),
        2 | 3 => call.output.push(junk),
        4 | 5 => call.output.resize(columns, junk),
        6 => call.output.clear(),
        _ => resize_words(random, &mut call.output),
    }
}
