//! Grids of a chosen depth: a staircase of alternating cells in any order of rows and columns, among other stuck cells
//! that do not deepen it, with the K that allows it or the K just below.

use crate::counters::{Shape, MOST_LINES};
use crate::faults::{sound_grid, staircase};
use crate::levels::{take_levels, State};
use crate::random::Random;

/// The levels that a grid is to ask for: K itself, one more than K allows, or fewer.
fn some_levels(random: &mut Random, most_levels: usize) -> usize {
    match random.below(10) {
        0..=3 => most_levels,
        4 | 5 => most_levels + 1,
        _ => random.between(0, most_levels),
    }
}

/// A number of rows or columns that has room for so many levels: mostly just enough or few more.
fn some_lines_for(random: &mut Random, levels: usize) -> usize {
    let least = levels.max(1);
    match random.below(20) {
        0..=5 => least,
        6..=15 => least + random.between(1, 4),
        16..=18 => least + random.between(5, 14),
        _ if random.bit() => MOST_LINES as usize,
        _ => random.between(least, MOST_LINES as usize),
    }
}

/// The levels that a grid takes, or nothing if they never end; no grid of 64 by 64 takes more than 64.
fn levels_of(grid: &[Vec<State>]) -> Option<usize> {
    let shape = Shape {
        rows: grid.len(),
        columns: grid[0].len(),
        most_levels: MOST_LINES as usize,
    };
    take_levels(shape, grid).ok().map(|(levels, _)| levels)
}

/// Makes sound cells stuck, up to so many, where that leaves the levels as they are.
fn add_idle_faults(random: &mut Random, grid: &mut [Vec<State>], most: usize) {
    let levels = levels_of(grid);
    for _ in 0..random.between(0, most) {
        let row = random.below(grid.len());
        let column = random.below(grid[0].len());
        if grid[row][column] == State::Sound {
            grid[row][column] = random.pick(&[State::Right, State::Wrong]);
            if levels_of(grid) != levels {
                grid[row][column] = State::Sound;
            }
        }
    }
}

/// A shape with K up to the greatest, and faults whose longest chain has a chosen length.
pub fn deep_faults(random: &mut Random, greatest: usize) -> (Shape, Vec<Vec<State>>) {
    let most_levels = random.between(1, greatest);
    let levels = some_levels(random, most_levels);
    let shape = Shape {
        rows: some_lines_for(random, levels),
        columns: some_lines_for(random, levels),
        most_levels,
    };
    let mut grid = sound_grid(shape.rows, shape.columns);
    // A last cell that is right takes no further level.
    let last_is_right = usize::from(levels > 0 && random.percent(30));
    let length = (2 * levels).saturating_sub(1) + last_is_right;
    staircase(random, &mut grid, length, State::Wrong);
    let most_idle = if shape.rows * shape.columns > 400 {
        3
    } else {
        8
    };
    if random.percent(70) {
        add_idle_faults(random, &mut grid, most_idle);
    }
    (shape, grid)
}
