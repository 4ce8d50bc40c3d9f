//! How a case of A8 is written: counters of any width as bytes, conversions, and staircases of any depth.

use crate::bits::{bytes_that_hold, set_bit_of_bytes};
use crate::call::{Call, GridConvert};
use crate::cases_pointer::Case;
use crate::grid_case::{stuck, Block, Place};

/// What the output of a conversion holds before it; its highest bits are spare in most outputs.
pub const JUNK_BYTE: u8 = 0xa5;

/// The width of counters by K, from 0, which has none.
pub const WIDTHS: [usize; 8] = [0, 1, 2, 2, 3, 3, 3, 3];

/// Rows and columns whose counters of three bits end within a byte, at its end, or straddle two: 2, 3, 5, 8, 11, 16,
/// 21, 22, 43, 127 and 128 counters, and those of a single row or column.
pub const SIZES: [(u64, u64); 13] = [
    (1, 1),
    (2, 1),
    (2, 3),
    (5, 3),
    (4, 7),
    (9, 7),
    (8, 13),
    (11, 11),
    (20, 23),
    (63, 64),
    (64, 64),
    (1, 64),
    (64, 1),
];

/// Counters packed in so many bits each, lowest first.
pub fn packed(width: usize, counters: &[u8]) -> Vec<u8> {
    let mut bytes = vec![0; bytes_that_hold(width * counters.len())];
    for (place, counter) in counters.iter().enumerate() {
        for bit in 0..width {
            let value = counter >> bit & 1 == 1;
            set_bit_of_bytes(&mut bytes, width * place + bit, value);
        }
    }
    bytes
}

/// Counters packed as K asks.
pub fn packed_at(most_levels: u64, counters: &[u8]) -> Vec<u8> {
    packed(WIDTHS[most_levels as usize], counters)
}

/// The bytes that the counters of these rows and columns take at K.
pub fn length_at(rows: u64, columns: u64, most_levels: u64) -> usize {
    bytes_that_hold((rows + columns) as usize * WIDTHS[most_levels as usize])
}

/// Counters from 0 to K, mixed: they read differently backwards, and rows differ from columns.
pub fn mixed(most_levels: u64, rows: u64, columns: u64) -> Vec<u8> {
    (0..rows + columns)
        .map(|place| ((5 * place + place / 3 + place / 7 + 1) % (most_levels + 1)) as u8)
        .collect()
}

/// A conversion as a case, of these bytes, into so many bytes of junk.
pub fn convert(name: &str, numbers: [u64; 4], counters: &[u8], output_bytes: usize) -> Case {
    convert_over(name, numbers, counters, &vec![JUNK_BYTE; output_bytes])
}

/// A conversion as a case, with this old output.
pub fn convert_over(name: &str, numbers: [u64; 4], counters: &[u8], old_output: &[u8]) -> Case {
    let call = GridConvert {
        numbers,
        counters: counters.to_vec(),
        output: old_output.to_vec(),
    };
    (String::from(name), Call::GridConvert(call))
}

/// G6 grown to so many levels, in a square block of this size: data 0, (i,i) stuck at 1, and (i,i+1) between two of
/// them at 0.
pub fn staircase(levels: usize, size: usize, most_levels: u64) -> Block {
    let at_1: Vec<Place> = (0..levels).map(|step| (step, step)).collect();
    let at_0: Vec<Place> = (1..levels).map(|step| (step - 1, step)).collect();
    stuck(size, most_levels, &at_1, &at_0)
}

/// A block without faults, the data's rows all different.
pub fn sound(rows: u64, columns: u64, most_levels: u64) -> Block {
    let inside = u64::MAX >> (64 - columns);
    Block {
        numbers: [rows, columns, most_levels],
        data: (1..=rows)
            .map(|row| 0x0123_4567_89ab_cdef_u64.rotate_left(5 * row as u32) & inside)
            .collect(),
        mask: vec![0; rows as usize],
        values: vec![0; rows as usize],
    }
}
