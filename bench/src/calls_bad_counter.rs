//! Rough grid reads and stores with counters above K: one or several, in one list or in both, alone or beside what is
//! refused with 1, 2, 3 or 13.

use second::call::{GridRead, GridStore};
use second::counters::counter_width;
use second::random::Random;

use crate::calls_grid::{
    lower_to_k, mask_faults, rough_counters, rough_read, rough_store, set_counter,
};

/// Every K that a counter of its width can be above: two bits hold 3, and three hold 5, 6 and 7.
const EXCEEDED: [u64; 4] = [2, 4, 5, 6];

/// The least numbers above the ranges of rows, columns and K.
const TOO_MANY: [u64; 3] = [65, 65, 8];

/// Up to five of the counters from this place on, of which there are so many.
fn a_few(random: &mut Random, start: usize, count: usize) -> Vec<usize> {
    (0..random.between(2, 5))
        .map(|_| start + random.below(count))
        .collect()
}

/// Which counters are to be bad: one at an end of its list, one anywhere, or several in one list or in both.
fn some_places(random: &mut Random, rows: usize, columns: usize) -> Vec<usize> {
    match random.below(9) {
        0 => vec![0],
        1 => vec![rows - 1],
        2 => vec![rows],
        3 => vec![rows + columns - 1],
        4 => vec![random.below(rows + columns)],
        5 => a_few(random, 0, rows),
        6 => a_few(random, rows, columns),
        7 => vec![random.below(rows), rows + random.below(columns)],
        _ => a_few(random, 0, rows + columns),
    }
}

/// Gives numbers a K that counters can be above, and counters of any bits, of which some places alone are: by any value
/// that the width holds, so that the first is often not the greatest.
pub fn put_bad_counters(random: &mut Random, numbers: &mut [u64; 3], counters: &mut Vec<u8>) {
    let k = random.pick(&EXCEEDED);
    numbers[2] = k;
    *counters = rough_counters(random, *numbers);
    lower_to_k(*numbers, counters);
    let highest = (1 << counter_width(k as usize)) - 1;
    for place in some_places(random, numbers[0] as usize, numbers[1] as usize) {
        let value = random.between(k as usize + 1, highest);
        set_counter(counters, k, place, value);
    }
}

/// Adds what is refused with 1, 2 or 3, if it can: a number, a length, a bit past the last column or a spare bit. The
/// last buffer of words is only measured.
fn damage(
    random: &mut Random,
    numbers: &mut [u64; 3],
    words: &mut [&mut Vec<u64>],
    counters: &mut Vec<u8>,
) {
    let buffer = random.below(words.len());
    let columns = numbers[1] as usize;
    match random.below(5) {
        0 => {
            let place = random.below(3);
            numbers[place] = random.pick(&[0, TOO_MANY[place]]);
        }
        1 => {
            let length = words[buffer].len();
            words[buffer].resize(random.pick(&[length - 1, length + 1]), 0);
        }
        2 => {
            let length = counters.len();
            counters.resize(random.pick(&[length - 1, length + 1]), 0xff);
        }
        3 if columns < 64 && buffer < words.len() - 1 => {
            let row = random.below(words[buffer].len());
            words[buffer][row] |= 1 << random.between(columns, 63);
        }
        // Where no bit is spare, this is the last column's.
        _ => *counters.last_mut().unwrap() |= 0x80,
    }
}

/// A grid read of any bits with bad counters.
pub fn read(random: &mut Random) -> GridRead {
    let mut call = rough_read(random);
    put_bad_counters(random, &mut call.numbers, &mut call.counters);
    if random.percent(30) {
        let mut words = [&mut call.cells, &mut call.output];
        damage(random, &mut call.numbers, &mut words, &mut call.counters);
    }
    call
}

/// A grid store of any bits with bad counters; in half of them these would mask the faults.
pub fn store(random: &mut Random) -> GridStore {
    let mut call = rough_store(random);
    put_bad_counters(random, &mut call.numbers, &mut call.counters);
    if random.bit() {
        mask_faults(random, &mut call);
    }
    if random.percent(30) {
        let mut words = [
            &mut call.data,
            &mut call.mask,
            &mut call.values,
            &mut call.cells,
        ];
        damage(random, &mut call.numbers, &mut words, &mut call.counters);
    }
    call
}
