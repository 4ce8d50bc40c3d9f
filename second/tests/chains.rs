//! Levels and chains agree on every pattern of faults of some small grids, with a third way to tell a chain.

use second::answer;
use second::call::{Call, GridPlan};
use second::chains::longest_chain;
use second::levels::{states, State};

/// The plan of data 0 whose cells are sound, right or wrong by the digits, base 3, of the pattern.
fn plan_of(pattern: usize, rows: usize, columns: usize, most_levels: usize) -> GridPlan {
    let mut mask = vec![0; rows];
    let mut values = vec![0; rows];
    let mut rest = pattern;
    for row in 0..rows {
        for column in 0..columns {
            if !rest.is_multiple_of(3) {
                mask[row] |= 1 << column;
            }
            if rest % 3 == 2 {
                values[row] |= 1 << column;
            }
            rest /= 3;
        }
    }
    let width = [1, 2, 2, 3, 3, 3, 3][most_levels - 1];
    GridPlan {
        numbers: [rows as u64, columns as u64, most_levels as u64],
        data: vec![0; rows],
        mask,
        values,
        counters: vec![0; ((rows + columns) * width).div_ceil(8)],
    }
}

/// Whether a chain goes on from a cell for so many cells more, trying each cell in turn.
fn goes_on(grid: &[Vec<State>], row: usize, column: usize, by_row: bool, more: usize) -> bool {
    if more == 0 {
        return true;
    }
    for next_row in 0..grid.len() {
        for next_column in 0..grid[0].len() {
            let in_line = if by_row {
                next_row == row
            } else {
                next_column == column
            };
            let here = grid[row][column];
            let there = grid[next_row][next_column];
            let in_turn = there != State::Sound && there != here;
            if in_line && in_turn && goes_on(grid, next_row, next_column, !by_row, more - 1) {
                return true;
            }
        }
    }
    false
}

/// Whether a chain of so many cells exists, by walking every one.
fn walked(grid: &[Vec<State>], length: usize) -> bool {
    (0..grid.len()).any(|row| {
        (0..grid[0].len()).any(|column| {
            grid[row][column] == State::Wrong
                && [true, false]
                    .iter()
                    .any(|by_row| goes_on(grid, row, column, *by_row, length - 1))
        })
    })
}

#[test]
fn levels_and_chains_agree_on_all_small_grids() {
    for (rows, columns) in [
        (1, 1),
        (1, 4),
        (4, 1),
        (2, 2),
        (2, 3),
        (3, 2),
        (2, 4),
        (3, 3),
    ] {
        for pattern in 0..3usize.pow((rows * columns) as u32) {
            for most_levels in 1..=7 {
                let mut call = Call::GridPlan(plan_of(pattern, rows, columns, most_levels));
                let outcome = answer::make(&mut call).unwrap();
                assert!(outcome.number == 0 || outcome.number == 7);
            }
        }
    }
}

#[test]
fn the_search_for_chains_agrees_with_walking_them() {
    for (rows, columns) in [(1, 3), (2, 2), (2, 3), (3, 2), (3, 3)] {
        for pattern in 0..3usize.pow((rows * columns) as u32) {
            let call = plan_of(pattern, rows, columns, 3);
            let grid = states(columns, &call.data, &call.mask, &call.values);
            for length in 1..=15 {
                let exists = longest_chain(&grid, length) == length;
                assert_eq!(exists, walked(&grid, length));
            }
        }
    }
}
