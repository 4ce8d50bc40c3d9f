//! Damage to the counters of grid calls: spare bits, and counters above K, one or several, in one list or in both.

use crate::bits::{bytes_that_hold, set_bit_of_bytes};
use crate::counters::{counter_width, packed_counters, unpacked_counters, MOST_LINES};
use crate::make_grid::shape_of;
use crate::random::Random;

/// The ranges of rows, columns and K end here, where K goes up to the greatest.
pub fn most_of_numbers(greatest: usize) -> [u64; 3] {
    [MOST_LINES, MOST_LINES, greatest as u64]
}

/// A K for which a counter of its width can be above it: up to 3 that is 2 alone.
fn some_k_with_bad_counters(random: &mut Random, greatest: usize) -> u64 {
    if greatest > 3 {
        random.pick(&[2, 4, 4, 5, 5, 6])
    } else {
        2
    }
}

/// The bits that the counters of these numbers use, if the numbers are in range and the length is theirs.
fn used_bits(numbers: [u64; 3], counters: &[u8], greatest: usize) -> Option<usize> {
    let most = most_of_numbers(greatest);
    if (0..3).any(|place| !(1..=most[place]).contains(&numbers[place])) {
        return None;
    }
    let used = (numbers[0] + numbers[1]) as usize * counter_width(numbers[2] as usize);
    if counters.len() == bytes_that_hold(used) {
        Some(used)
    } else {
        None
    }
}

/// Sets the first spare bit, the last, any one or all, if there is one.
pub fn set_spare_bits(
    random: &mut Random,
    greatest: usize,
    numbers: [u64; 3],
    counters: &mut [u8],
) {
    let first = match used_bits(numbers, counters, greatest) {
        Some(used) if used < counters.len() * 8 => used,
        _ => return,
    };
    let last = counters.len() * 8 - 1;
    let one = random.between(first, last);
    match random.below(4) {
        0 => set_bit_of_bytes(counters, first, true),
        1 => set_bit_of_bytes(counters, last, true),
        2 => set_bit_of_bytes(counters, one, true),
        _ => {
            for spare in first..=last {
                set_bit_of_bytes(counters, spare, true);
            }
        }
    }
}

/// Some counters of the list that starts at a place, at least so many if it has them: mostly few, at times up to all.
fn some_of_list(random: &mut Random, start: usize, length: usize, least: usize) -> Vec<usize> {
    let most = if random.percent(75) {
        length.min(least + 1)
    } else {
        length
    };
    let count = random.between(least.min(length), most);
    let chosen = random.order(length);
    chosen[..count].iter().map(|line| start + line).collect()
}

/// Which counters to raise: one at an end of its list or anywhere, several rows, several columns, some of both, or all.
fn places_to_raise(random: &mut Random, rows: usize, columns: usize) -> Vec<usize> {
    let all = rows + columns;
    match random.below(100) {
        0..=49 => {
            let any = random.below(all);
            vec![random.pick(&[0, rows - 1, rows, all - 1, any, any])]
        }
        50..=62 => some_of_list(random, 0, rows, 2),
        63..=75 => some_of_list(random, rows, columns, 2),
        76..=97 => {
            let mut places = some_of_list(random, 0, rows, 1);
            places.extend(some_of_list(random, rows, columns, 1));
            places
        }
        _ => (0..all).collect(),
    }
}

/// A counter above K in its width, or where there is none the highest of its width.
fn some_high_counter(random: &mut Random, most_levels: usize) -> usize {
    let highest = (1 << counter_width(most_levels)) - 1;
    if most_levels + 1 < highest {
        random.between(most_levels + 1, highest)
    } else {
        highest
    }
}

/// Gives some counters values above K where the width has any, and else the highest of the width. Where the values
/// may differ, the first is often the lowest of them: the first bad counter is then not the greatest.
pub fn raise_counters(
    random: &mut Random,
    greatest: usize,
    numbers: [u64; 3],
    counters: &mut [u8],
) {
    if used_bits(numbers, counters, greatest).is_none() {
        return;
    }
    let shape = shape_of(numbers);
    let width = counter_width(shape.most_levels);
    let mut places = places_to_raise(random, shape.rows, shape.columns);
    places.sort();
    let values_differ = matches!(shape.most_levels, 4 | 5);
    let first_is_lowest = values_differ && random.percent(60);
    for place in places.iter() {
        let value = if first_is_lowest && *place == places[0] {
            shape.most_levels + 1
        } else {
            some_high_counter(random, shape.most_levels)
        };
        for bit in 0..width {
            set_bit_of_bytes(counters, place * width + bit, value >> bit & 1 == 1);
        }
    }
}

/// Gives a sound call a K that has bad counters and raises some above it; no other is above K, so that it is known
/// which are bad.
pub fn put_bad_counters(
    random: &mut Random,
    greatest: usize,
    numbers: &mut [u64; 3],
    packed: &mut Vec<u8>,
) {
    let mut counters = unpacked_counters(shape_of(*numbers), packed);
    numbers[2] = some_k_with_bad_counters(random, greatest);
    for counter in counters.rows.iter_mut().chain(&mut counters.columns) {
        *counter = (*counter).min(numbers[2] as usize);
    }
    *packed = packed_counters(shape_of(*numbers), &counters);
    raise_counters(random, greatest, *numbers, packed);
}
