//! Damage to conversions: numbers, a smaller target, lengths, widths exchanged, spare bits, and counters above K.

use crate::call::GridConvert;
use crate::counters::{MOST_LEVELS, MOST_LINES};
use crate::damage::{number_near_limit, number_outside, resize_bytes};
use crate::damage_counters::{raise_counters, set_spare_bits};
use crate::make_convert::packed_length;
use crate::random::Random;

/// The ranges of rows, columns, K and the target end here.
const MOST: [u64; 4] = [MOST_LINES, MOST_LINES, MOST_LEVELS, MOST_LEVELS];

/// Whether rows, columns, K and the target are each in range.
fn are_in_range(numbers: [u64; 4]) -> bool {
    (0..4).all(|place| (1..=MOST[place]).contains(&numbers[place]))
}

/// Gives a conversion one kind of damage.
pub fn damage_convert(random: &mut Random, call: &mut GridConvert) {
    let greatest = MOST_LEVELS as usize;
    let [rows, columns, most_levels, _] = call.numbers;
    let at_k = [rows, columns, most_levels];
    match random.below(100) {
        0..=12 => damage_number(random, call),
        13..=22 => shrink_target(random, call),
        23..=34 => resize_bytes(random, &mut call.counters),
        35..=46 => resize_bytes(random, &mut call.output),
        47..=55 => exchange_widths(random, call),
        56..=70 => set_spare_bits(random, greatest, at_k, &mut call.counters),
        71..=90 => raise_counters(random, greatest, at_k, &mut call.counters),
        91..=93 => call.numbers.swap(0, 1),
        94..=96 => call.numbers.swap(2, 3),
        _ => call.numbers[3] = random.between(0, greatest + 1) as u64,
    }
}

/// Gives one of the four numbers another value; half the time the buffers then get the lengths that it would ask for.
fn damage_number(random: &mut Random, call: &mut GridConvert) {
    let place = random.below(4);
    call.numbers[place] = if random.percent(75) {
        number_outside(random, call.numbers[place], MOST[place])
    } else {
        number_near_limit(random, call.numbers[place], MOST[place])
    };
    if call.numbers.iter().all(|number| *number <= 70) && random.bit() {
        fit_lengths(call);
    }
}

/// Gives the buffers the lengths that the numbers ask for, whether or not these are in range.
fn fit_lengths(call: &mut GridConvert) {
    let [rows, columns, most_levels, target] = call.numbers;
    call.counters
        .resize(packed_length(rows, columns, most_levels), 0);
    call.output
        .resize(packed_length(rows, columns, target), 0xa5);
}

/// Makes the target smaller than K where there is such a target, mostly with the output's length fitted to it.
fn shrink_target(random: &mut Random, call: &mut GridConvert) {
    if !are_in_range(call.numbers) || call.numbers[2] == 1 {
        return;
    }
    let below = call.numbers[2] - 1;
    let any = random.between(1, below as usize) as u64;
    call.numbers[3] = random.pick(&[below, any, any]);
    if random.percent(70) {
        fit_lengths(call);
    }
}

/// Gives the output the length of K's width, or the counters that of the target's, or each that of the other.
fn exchange_widths(random: &mut Random, call: &mut GridConvert) {
    let (of_counters, of_output) = (call.counters.len(), call.output.len());
    let kind = random.below(3);
    if kind != 0 {
        call.counters.resize(of_output, 0);
    }
    if kind != 1 {
        call.output.resize(of_counters, 0xa5);
    }
}
