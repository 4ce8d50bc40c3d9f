//! What sound grid calls are made of: shapes of all kinds, data, counters of all kinds; and grid reads.

use crate::call::{GridRead, GridStore};
use crate::counters::{packed_counters, Counters, Shape};
use crate::random::Random;

/// A shape with K up to the greatest: mostly small, at times a single row or column, one in twenty-five 64 by 64.
pub fn some_shape(random: &mut Random, greatest: usize) -> Shape {
    let (rows, columns) = match random.below(100) {
        0..=3 => (64, 64),
        4..=7 => (1, 1),
        8..=9 => (1, 64),
        10 => (64, 1),
        11..=18 => (2, 2),
        19..=28 => (3, 3),
        29..=31 => (4, 4),
        32..=35 => (random.between(1, 17), random.between(1, 17)),
        36..=41 => (random.between(1, 5), random.between(57, 64)),
        _ => (random.between(1, 8), random.between(1, 8)),
    };
    Shape {
        rows,
        columns,
        most_levels: random.between(1, greatest),
    }
}

/// A word that has no bit past the last column.
fn some_line(random: &mut Random, columns: usize) -> u64 {
    random.word() >> (64 - columns)
}

/// One such word a row.
pub fn some_lines(random: &mut Random, rows: usize, columns: usize) -> Vec<u64> {
    (0..rows).map(|_| some_line(random, columns)).collect()
}

/// The data of a grid: all zero, or anything.
pub fn some_data(random: &mut Random, rows: usize, columns: usize) -> Vec<u64> {
    if random.percent(15) {
        vec![0; rows]
    } else {
        some_lines(random, rows, columns)
    }
}

/// The three numbers of a shape as a call has them.
pub fn numbers_of(shape: Shape) -> [u64; 3] {
    [
        shape.rows as u64,
        shape.columns as u64,
        shape.most_levels as u64,
    ]
}

/// The shape of numbers that are in range.
pub fn shape_of(numbers: [u64; 3]) -> Shape {
    let [rows, columns, most_levels] = numbers.map(|number| number as usize);
    Shape {
        rows,
        columns,
        most_levels,
    }
}

/// Counters up to K: all alike, one line's alone, or each anything.
pub fn some_counters(random: &mut Random, shape: Shape) -> Counters {
    let most = shape.most_levels;
    let same = random.between(0, most);
    let kind = random.below(100);
    let mut some = |count: usize| -> Vec<usize> {
        (0..count)
            .map(|_| match kind {
                0..=14 => same,
                15..=22 => 0,
                _ => random.between(0, most),
            })
            .collect()
    };
    let mut counters = Counters {
        rows: some(shape.rows),
        columns: some(shape.columns),
    };
    if (15..=22).contains(&kind) {
        raise_one_line(random, shape, &mut counters);
    }
    counters
}

/// Gives one row or one column a counter above 0.
fn raise_one_line(random: &mut Random, shape: Shape, counters: &mut Counters) {
    let raised = random.between(1, shape.most_levels);
    if random.bit() {
        let row = random.pick(&[0, shape.rows - 1]);
        counters.rows[row] = raised;
    } else {
        let column = random.pick(&[0, shape.columns - 1]);
        counters.columns[column] = raised;
    }
}

/// A read of the cells and counters that an accepted store left.
pub fn read_of(random: &mut Random, grid: GridStore) -> GridRead {
    GridRead {
        numbers: grid.numbers,
        output: random.words(grid.cells.len()),
        cells: grid.cells,
        counters: grid.counters,
    }
}

/// A read of any cells with any counters up to K, whether or not a plan would make them.
pub fn read_of_some_grid(random: &mut Random, greatest: usize) -> GridRead {
    let shape = some_shape(random, greatest);
    let counters = some_counters(random, shape);
    GridRead {
        numbers: numbers_of(shape),
        cells: some_lines(random, shape.rows, shape.columns),
        counters: packed_counters(shape, &counters),
        output: random.words(shape.rows),
    }
}
