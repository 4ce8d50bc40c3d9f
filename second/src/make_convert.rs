//! Makes sound conversions: counters of plans and stores, and any others, to targets from K on.

use crate::bits::bytes_that_hold;
use crate::call::GridConvert;
use crate::counters::{counter_bits, packed_counters, MOST_LEVELS};
use crate::make_grid::{numbers_of, shape_of, some_counters, some_shape};
use crate::random::Random;

/// Numbers and packed counters, as a conversion starts from them.
pub type Packed = ([u64; 3], Vec<u8>);

/// Any counters up to K of any shape.
pub fn some_packed(random: &mut Random) -> Packed {
    let shape = some_shape(random, MOST_LEVELS as usize);
    let counters = some_counters(random, shape);
    (numbers_of(shape), packed_counters(shape, &counters))
}

/// A target that is not smaller than K: K itself, the next, the greatest, or any.
fn some_target(random: &mut Random, most_levels: u64) -> u64 {
    match random.below(6) {
        0 => most_levels,
        1 => (most_levels + 1).min(MOST_LEVELS),
        2 => MOST_LEVELS,
        _ => random.between(most_levels as usize, MOST_LEVELS as usize) as u64,
    }
}

/// The length of the counters of these rows and columns at K or at the target, whichever is given.
pub fn packed_length(rows: u64, columns: u64, most_levels: u64) -> usize {
    bytes_that_hold(counter_bits(shape_of([rows, columns, most_levels])))
}

/// The conversion of these counters to some target; the output holds junk before, in its spare bits too.
pub fn conversion_of(random: &mut Random, packed: Packed) -> GridConvert {
    let ([rows, columns, most_levels], counters) = packed;
    let target = some_target(random, most_levels);
    GridConvert {
        numbers: [rows, columns, most_levels, target],
        counters,
        output: random.bytes(packed_length(rows, columns, target)),
    }
}
