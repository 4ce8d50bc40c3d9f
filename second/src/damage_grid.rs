//! Damage to grid calls: numbers, lengths, bits past the last column, and the damage to their counters.

use crate::bits::bytes_that_hold;
use crate::call::{GridPlan, GridRead, GridStore};
use crate::counters::counter_width;
use crate::damage::{number_near_limit, number_outside, resize_bytes, resize_words};
use crate::damage_counters::{most_of_numbers, raise_counters, set_spare_bits};
use crate::random::Random;

/// Gives a grid plan one kind of damage.
pub fn damage_plan(random: &mut Random, greatest: usize, call: &mut GridPlan) {
    let mut words = [&mut call.data, &mut call.mask, &mut call.values];
    match random.below(100) {
        0..=29 => damage_numbers(
            random,
            greatest,
            &mut call.numbers,
            &mut words,
            &mut call.counters,
        ),
        30..=59 => damage_lengths(random, &mut words, &mut call.counters),
        60..=89 => {
            let place = random.below(3);
            set_bits_past(random, call.numbers[1], words[place]);
        }
        90..=94 => call.numbers.swap(0, 1),
        _ => call.numbers[2] = random.between(0, greatest + 1) as u64,
    }
}

/// Gives a grid store one kind of damage.
pub fn damage_store(random: &mut Random, greatest: usize, call: &mut GridStore) {
    let mut words = [
        &mut call.data,
        &mut call.mask,
        &mut call.values,
        &mut call.cells,
    ];
    match random.below(100) {
        0..=14 => damage_numbers(
            random,
            greatest,
            &mut call.numbers,
            &mut words,
            &mut call.counters,
        ),
        15..=34 => damage_lengths(random, &mut words, &mut call.counters),
        35..=52 => {
            let place = random.below(3);
            set_bits_past(random, call.numbers[1], words[place]);
        }
        53..=65 => set_spare_bits(random, greatest, call.numbers, &mut call.counters),
        66..=94 => {
            // The counters of K = 3 have the width of those of K = 2, for which 3 is too high; so have those of 7 that
            // of 4, 5 and 6.
            if call.numbers[2] == 3 && random.bit() {
                call.numbers[2] = 2;
            } else if call.numbers[2] == 7 && greatest == 7 && random.bit() {
                call.numbers[2] = random.pick(&[4, 5, 6]);
            }
            raise_counters(random, greatest, call.numbers, &mut call.counters);
        }
        95 | 96 => call.numbers.swap(0, 1),
        _ => call.numbers[2] = random.between(0, greatest + 1) as u64,
    }
}

/// Gives a grid read one kind of damage.
pub fn damage_read(random: &mut Random, greatest: usize, call: &mut GridRead) {
    let mut words = [&mut call.cells, &mut call.output];
    match random.below(100) {
        0..=18 => damage_numbers(
            random,
            greatest,
            &mut call.numbers,
            &mut words,
            &mut call.counters,
        ),
        19..=38 => damage_lengths(random, &mut words, &mut call.counters),
        39..=51 => set_bits_past(random, call.numbers[1], &mut call.cells),
        52..=64 => set_spare_bits(random, greatest, call.numbers, &mut call.counters),
        65..=94 => raise_counters(random, greatest, call.numbers, &mut call.counters),
        95 | 96 => call.numbers.swap(0, 1),
        _ => call.numbers[2] = random.between(0, greatest + 1) as u64,
    }
}

/// Gives one of the three numbers another value; half the time the buffers then get the lengths that the
/// new numbers would ask for.
fn damage_numbers(
    random: &mut Random,
    greatest: usize,
    numbers: &mut [u64; 3],
    words: &mut [&mut Vec<u64>],
    counters: &mut Vec<u8>,
) {
    let most = most_of_numbers(greatest);
    let place = random.below(3);
    numbers[place] = if random.percent(75) {
        number_outside(random, numbers[place], most[place])
    } else {
        number_near_limit(random, numbers[place], most[place])
    };
    if numbers.iter().all(|number| *number <= 70) && random.bit() {
        let rows = numbers[0] as usize;
        for buffer in words.iter_mut() {
            buffer.resize(rows, 0);
        }
        let widest = counter_width(greatest);
        let width = match numbers[2] as usize {
            0 => random.below(widest + 1),
            k if k <= greatest => counter_width(k),
            _ => random.between(widest, widest + 1),
        };
        let bits = (rows + numbers[1] as usize) * width;
        counters.resize(bytes_that_hold(bits), 0);
    }
}

/// Gives one buffer, or now and then two, a wrong length.
fn damage_lengths(random: &mut Random, words: &mut [&mut Vec<u64>], counters: &mut Vec<u8>) {
    let times = if random.percent(15) { 2 } else { 1 };
    for _ in 0..times {
        let place = random.below(words.len() + 1);
        if place < words.len() {
            resize_words(random, words[place]);
        } else {
            resize_bytes(random, counters);
        }
    }
}

/// Sets bits past the last column in one word: the first such bit, the highest, any one or all.
pub fn set_bits_past(random: &mut Random, columns: u64, words: &mut [u64]) {
    if columns >= 64 || words.is_empty() {
        return;
    }
    let first = columns as usize;
    let row = match random.below(3) {
        0 => 0,
        1 => words.len() - 1,
        _ => random.below(words.len()),
    };
    let bits = match random.below(4) {
        0 => first..=first,
        1 => 63..=63,
        2 => {
            let one = random.between(first, 63);
            one..=one
        }
        _ => first..=63,
    };
    for bit in bits {
        words[row] |= 1 << bit;
    }
}
