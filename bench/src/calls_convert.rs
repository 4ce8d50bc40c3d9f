//! Rough conversions: counters of any bits to any target; and those with damage that is refused with 1, 2, 3 or 4, of one
//! kind or of several at once.

use second::bits::set_bit_of_bytes;
use second::call::GridConvert;
use second::counters::counter_bits;
use second::make_convert::packed_length;
use second::make_grid::shape_of;
use second::random::Random;

use crate::calls_bad_counter::put_bad_counters;
use crate::calls_grid::{lower_to_k, rough_counters, rough_numbers};

/// The greatest rows, columns, K and target.
const MOST: [u64; 4] = [64, 64, 7, 7];

/// The conversion of these counters to a target; the output holds anything.
fn to_target(
    random: &mut Random,
    [rows, columns, k]: [u64; 3],
    counters: Vec<u8>,
    target: u64,
) -> GridConvert {
    GridConvert {
        numbers: [rows, columns, k, target],
        counters,
        output: random.bytes(packed_length(rows, columns, target)),
    }
}

/// A target from K on.
fn some_target(random: &mut Random, k: u64) -> u64 {
    random.between(k as usize, 7) as u64
}

/// A conversion of counters of any bits in a grid of any shape; in most no counter is above K.
pub fn rough(random: &mut Random) -> GridConvert {
    let numbers = rough_numbers(random);
    let mut counters = rough_counters(random, numbers);
    if random.percent(80) {
        lower_to_k(numbers, &mut counters);
    }
    let target = some_target(random, numbers[2]);
    to_target(random, numbers, counters, target)
}

/// Puts one number outside its range, or K and the target together.
fn move_number_out(random: &mut Random, call: &mut GridConvert) {
    let place = random.below(5);
    if place == 4 {
        call.numbers[2] = 8;
        call.numbers[3] = 8;
    } else {
        call.numbers[place] = random.pick(&[0, MOST[place] + 1]);
    }
}

/// Makes the target smaller than K, if there is a smaller one; half the time the output has its length.
fn shrink_target(random: &mut Random, call: &mut GridConvert) {
    let [rows, columns, k, _] = call.numbers;
    if (2..=7).contains(&k) {
        call.numbers[3] = random.between(1, k as usize - 1) as u64;
        if random.bit() {
            let length = packed_length(rows, columns, call.numbers[3]);
            call.output.resize(length, 0xa5);
        }
    }
}

/// Sets a spare bit of the counters, or the last one where none is spare.
fn set_spare_bit(random: &mut Random, call: &mut GridConvert) {
    let [rows, columns, k, _] = call.numbers;
    let bits = 8 * call.counters.len();
    if bits > 0 {
        let used = counter_bits(shape_of([rows, columns, k])).min(bits - 1);
        set_bit_of_bytes(&mut call.counters, random.between(used, bits - 1), true);
    }
}

/// Makes a buffer a byte longer or shorter.
fn resize(random: &mut Random, buffer: &mut Vec<u8>) {
    let length = buffer.len();
    buffer.resize(random.pick(&[length + 1, length.saturating_sub(1)]), 0x00);
}

/// Gives a conversion one kind of damage; a length may be that of the other buffer.
fn damage(random: &mut Random, call: &mut GridConvert) {
    let lengths = [call.counters.len(), call.output.len()];
    match random.below(8) {
        0 => move_number_out(random, call),
        1 => shrink_target(random, call),
        2 => resize(random, &mut call.counters),
        3 => resize(random, &mut call.output),
        4 => call.output.resize(lengths[0], 0xa5),
        5 => call.counters.resize(lengths[1], 0x00),
        6 => {
            call.counters.resize(lengths[1], 0x00);
            call.output.resize(lengths[0], 0xa5);
        }
        _ => set_spare_bit(random, call),
    }
}

/// A conversion with damage, or with counters above K, or with both.
pub fn damaged(random: &mut Random) -> GridConvert {
    let mut call = rough(random);
    let with_bad_counters = random.percent(60);
    if with_bad_counters {
        let mut numbers = [call.numbers[0], call.numbers[1], 0];
        put_bad_counters(random, &mut numbers, &mut call.counters);
        let target = some_target(random, numbers[2]);
        call = to_target(random, numbers, call.counters, target);
    }
    if !with_bad_counters || random.percent(40) {
        for _ in 0..random.between(1, 3) {
            damage(random, &mut call);
        }
    }
    call
}
