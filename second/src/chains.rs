//! Chains of stuck cells (document 01, "A chain"): the second way to refusal 7 and to L, without the levels.

use crate::levels::State;

/// The direction of a step: to a cell of the same row, or to a cell of the same column.
#[derive(Clone, Copy, PartialEq, Eq)]
enum Step {
    ByRow,
    ByColumn,
}

/// What the chains of a grid decide for K.
#[derive(Clone, Copy, Debug, PartialEq, Eq)]
pub enum Verdict {
    Refusal7,
    Levels(usize),
}

/// The cells where a chain of one cell can end: the wrong ones.
fn ends_of_one(grid: &[Vec<State>]) -> Vec<Vec<bool>> {
    grid.iter()
        .map(|line| line.iter().map(|state| *state == State::Wrong).collect())
        .collect()
}

/// The cells of the wanted state that one step reaches from the cells where shorter chains can end.
fn ends_after_step(
    grid: &[Vec<State>],
    ends: &[Vec<bool>],
    step: Step,
    wanted: State,
) -> Vec<Vec<bool>> {
    let rows = grid.len();
    let columns = grid[0].len();
    let mut row_has_end = vec![false; rows];
    let mut column_has_end = vec![false; columns];
    for row in 0..rows {
        for column in 0..columns {
            if ends[row][column] {
                row_has_end[row] = true;
                column_has_end[column] = true;
            }
        }
    }
    let mut longer = vec![vec![false; columns]; rows];
    for row in 0..rows {
        for column in 0..columns {
            let reached = match step {
                Step::ByRow => row_has_end[row],
                Step::ByColumn => column_has_end[column],
            };
            longer[row][column] = reached && grid[row][column] == wanted;
        }
    }
    longer
}

/// The length of the longest chain of at most so many cells whose first step, if it has one, goes the given way. A
/// chain without its last cell is a chain too, so the search ends at the first length that no chain has.
fn longest_chain_from(grid: &[Vec<State>], most: usize, first_step: Step) -> usize {
    let mut ends = ends_of_one(grid);
    let mut step = first_step;
    let mut wanted = State::Right;
    let mut length = 0;
    while length < most && ends.iter().any(|line| line.contains(&true)) {
        length += 1;
        ends = ends_after_step(grid, &ends, step, wanted);
        step = match step {
            Step::ByRow => Step::ByColumn,
            Step::ByColumn => Step::ByRow,
        };
        wanted = match wanted {
            State::Right => State::Wrong,
            _ => State::Right,
        };
    }
    length
}

/// The length of the longest chain of at most so many cells, its first step by row or by column; 0 if there is none.
pub fn longest_chain(grid: &[Vec<State>], most: usize) -> usize {
    let by_row = longest_chain_from(grid, most, Step::ByRow);
    let by_column = longest_chain_from(grid, most, Step::ByColumn);
    by_row.max(by_column)
}

/// Refusal 7 if a chain of 2K + 1 cells exists; else L, which is 0 if no cell is wrong and otherwise the
/// greatest number for which a chain of 2L - 1 cells exists.
pub fn verdict(grid: &[Vec<State>], most_levels: usize) -> Verdict {
    let longest = longest_chain(grid, 2 * most_levels + 1);
    if longest == 2 * most_levels + 1 {
        return Verdict::Refusal7;
    }
    let mut levels = 0;
    while 2 * (levels + 1) - 1 <= longest {
        levels += 1;
    }
    Verdict::Levels(levels)
}
