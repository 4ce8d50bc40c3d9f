//! Rough grid calls: any bits in grids of any shape, mostly in range.

use second::bits::{bytes_that_hold, set_bit_of_bytes};
use second::call::{GridPlan, GridRead, GridStore};
use second::counters::{counter_width, is_inverted, stored_counter, unpacked_counters};
use second::make_grid::shape_of;
use second::random::Random;

use crate::calls::sparse_word;

/// Rows, columns and K, each anything in its range.
pub fn rough_numbers(random: &mut Random) -> [u64; 3] {
    [64, 64, 7].map(|most| random.between(1, most) as u64)
}

/// The bits that the counters of these numbers take.
fn used_bits([rows, columns, k]: [u64; 3]) -> usize {
    (rows + columns) as usize * counter_width(k as usize)
}

/// Sparse words for these rows and columns; now and then a bit past the last column.
fn rough_words(random: &mut Random, numbers: [u64; 3], halvings: usize) -> Vec<u64> {
    let mut words: Vec<u64> = (0..numbers[0])
        .map(|_| sparse_word(random, halvings) & u64::MAX >> (64 - numbers[1]))
        .collect();
    if random.percent(2) {
        let row = random.below(words.len());
        words[row] |= 1 << random.between(numbers[1] as usize - 1, 63);
    }
    words
}

/// A grid plan of any bits in a grid of any shape.
pub fn rough_plan(random: &mut Random) -> GridPlan {
    let numbers = rough_numbers(random);
    let halvings = random.pick(&[0, 2, 4, 5, 6, 7, 8, 9]);
    let data = rough_words(random, numbers, 0);
    let turned = random.pick(&[0, 0, 1, 3, 6]);
    let mut values = rough_words(random, numbers, turned);
    // Values near the data make most stuck cells right ones.
    if turned > 0 {
        values
            .iter_mut()
            .zip(&data)
            .for_each(|(value, data)| *value ^= data);
    }
    GridPlan {
        numbers,
        data,
        mask: rough_words(random, numbers, halvings),
        values,
        counters: random.bytes(bytes_that_hold(used_bits(numbers))),
    }
}

/// Counters of any bits, mostly without spare ones.
pub fn rough_counters(random: &mut Random, numbers: [u64; 3]) -> Vec<u8> {
    let used = used_bits(numbers);
    let halvings = random.pick(&[0, 1, 3, 5]);
    let mut counters: Vec<u8> = (0..bytes_that_hold(used))
        .map(|_| sparse_word(random, halvings) as u8)
        .collect();
    if !used.is_multiple_of(8) && random.percent(90) {
        *counters.last_mut().unwrap() &= (1 << (used % 8)) - 1;
    }
    counters
}

/// Gives the counter at a place this value and leaves every other bit.
pub fn set_counter(counters: &mut [u8], k: u64, place: usize, value: usize) {
    let width = counter_width(k as usize);
    for bit in 0..width {
        set_bit_of_bytes(counters, place * width + bit, value >> bit & 1 == 1);
    }
}

/// Makes K of each counter above it.
pub fn lower_to_k([rows, columns, k]: [u64; 3], counters: &mut [u8]) {
    for place in 0..(rows + columns) as usize {
        if stored_counter(counters, counter_width(k as usize), place) > k as usize {
            set_counter(counters, k, place, k as usize);
        }
    }
}

/// A grid read of any bits in a grid of any shape.
pub fn rough_read(random: &mut Random) -> GridRead {
    let numbers = rough_numbers(random);
    rough_read_of(random, numbers)
}

/// A grid read of any bits with these numbers; in half of them no counter is above K.
pub fn rough_read_of(random: &mut Random, numbers: [u64; 3]) -> GridRead {
    let mut counters = rough_counters(random, numbers);
    if random.bit() {
        lower_to_k(numbers, &mut counters);
    }
    GridRead {
        numbers,
        cells: rough_words(random, numbers, 0),
        counters,
        output: random.words(numbers[0] as usize),
    }
}

/// Gives every stuck cell the value that reads as its data bit; in half the calls one cell may get the other.
pub fn mask_faults(random: &mut Random, call: &mut GridStore) {
    let shape = shape_of(call.numbers);
    let counters = unpacked_counters(shape, &call.counters);
    let left_out = random.below(2 * shape.rows);
    for row in 0..shape.rows {
        let inverted = (0..shape.columns)
            .filter(|column| is_inverted(&counters, row, *column))
            .fold(0, |word, column| word | 1 << column);
        let mask = call.mask[row];
        call.values[row] &= !mask;
        call.values[row] |= (call.data[row] ^ inverted) & mask;
        if row == left_out && mask != 0 {
            let last = 1 << mask.ilog2();
            call.values[row] ^= if random.bit() {
                last
            } else {
                mask & mask.wrapping_neg()
            };
        }
    }
}

/// A grid store of any bits with any counters in a grid of any shape; in half of them the counters mask the faults.
pub fn rough_store(random: &mut Random) -> GridStore {
    let plan = rough_plan(random);
    let mut counters = rough_counters(random, plan.numbers);
    if random.percent(80) {
        lower_to_k(plan.numbers, &mut counters);
    }
    let mut call = GridStore {
        numbers: plan.numbers,
        cells: random.words(plan.data.len()),
        data: plan.data,
        mask: plan.mask,
        values: plan.values,
        counters,
    };
    if random.bit() {
        mask_faults(random, &mut call);
    }
    call
}
