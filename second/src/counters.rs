//! The shape of a grid and its counters, one for each row and each column (document 01, "Grid blocks"), with up to
//! seven levels (document 02, A8).

use crate::bits::{bit_of_bytes, bytes_that_hold, set_bit_of_bytes};

pub const MOST_LINES: u64 = 64;
pub const MOST_LEVELS: u64 = 7;

/// The judged numbers of a grid.
#[derive(Clone, Copy)]
pub struct Shape {
    pub rows: usize,
    pub columns: usize,
    pub most_levels: usize,
}

/// The counters of the rows and of the columns: a plan's count the levels that took each, other ones may be anything.
#[derive(Clone)]
pub struct Counters {
    pub rows: Vec<usize>,
    pub columns: Vec<usize>,
}

/// Refusal 1: the rows, the columns or K lie outside their range. Otherwise the shape.
pub fn judged_shape(rows: u64, columns: u64, most_levels: u64) -> Result<Shape, u8> {
    let fits = (1..=MOST_LINES).contains(&rows)
        && (1..=MOST_LINES).contains(&columns)
        && (1..=MOST_LEVELS).contains(&most_levels);
    if !fits {
        return Err(1);
    }
    Ok(Shape {
        rows: rows as usize,
        columns: columns as usize,
        most_levels: most_levels as usize,
    })
}

/// The width of a counter in bits: 1 for K = 1, 2 for K = 2 or 3, and 3 for K = 4 to 7, where counters straddle bytes.
pub fn counter_width(most_levels: usize) -> usize {
    match most_levels {
        1 => 1,
        2 | 3 => 2,
        _ => 3,
    }
}

/// The number of bits that the packed counters take.
pub fn counter_bits(shape: Shape) -> usize {
    (shape.rows + shape.columns) * counter_width(shape.most_levels)
}

/// The counter at a place of the packed counters, lowest bit first.
pub fn stored_counter(packed: &[u8], width: usize, place: usize) -> usize {
    let mut counter = 0;
    for bit in 0..width {
        if bit_of_bytes(packed, place * width + bit) {
            counter += 1 << bit;
        }
    }
    counter
}

/// The counters packed without gaps: the rows from row 0, then the columns, spare bits 0.
pub fn packed_counters(shape: Shape, counters: &Counters) -> Vec<u8> {
    let width = counter_width(shape.most_levels);
    let mut packed = vec![0; bytes_that_hold(counter_bits(shape))];
    let in_order = counters.rows.iter().chain(counters.columns.iter());
    for (place, counter) in in_order.enumerate() {
        for bit in 0..width {
            let value = (counter >> bit) & 1 == 1;
            set_bit_of_bytes(&mut packed, place * width + bit, value);
        }
    }
    packed
}

/// The counters of a packed buffer of the right length, whether or not they are up to K.
pub fn unpacked_counters(shape: Shape, packed: &[u8]) -> Counters {
    let width = counter_width(shape.most_levels);
    let mut in_order = Vec::new();
    for place in 0..shape.rows + shape.columns {
        in_order.push(stored_counter(packed, width, place));
    }
    Counters {
        rows: in_order[..shape.rows].to_vec(),
        columns: in_order[shape.rows..].to_vec(),
    }
}

/// The greatest counter, be it of a row or of a column.
pub fn greatest_counter(counters: &Counters) -> usize {
    let mut greatest = 0;
    for counter in counters.rows.iter().chain(counters.columns.iter()) {
        greatest = greatest.max(*counter);
    }
    greatest
}

/// The index of the first counter above K, if there is one: the rows are counted first and then the columns, from 0.
pub fn first_counter_above(counters: &Counters, most_levels: usize) -> Option<usize> {
    let in_order = counters.rows.iter().chain(counters.columns.iter());
    for (index, counter) in in_order.enumerate() {
        if *counter > most_levels {
            return Some(index);
        }
    }
    None
}

/// Whether the bit of a cell is stored and read inverted: the smaller of its two counters is odd.
pub fn is_inverted(counters: &Counters, row: usize, column: usize) -> bool {
    counters.rows[row].min(counters.columns[column]) % 2 == 1
}
