//! The levels of a grid plan: which rows and columns each level takes (document 01, "Grid blocks").

use crate::bits::bit_of_word;
use crate::counters::{Counters, Shape};

/// A cell as the data to be written sees it: sound, stuck at the wanted bit, or stuck at the other.
#[derive(Clone, Copy, Debug, PartialEq, Eq)]
pub enum State {
    Sound,
    Right,
    Wrong,
}

/// Each cell as the data sees it, row by row.
pub fn states(columns: usize, data: &[u64], mask: &[u64], values: &[u64]) -> Vec<Vec<State>> {
    let mut grid = Vec::new();
    for row in 0..data.len() {
        let mut line = Vec::new();
        for column in 0..columns {
            let state = if !bit_of_word(mask[row], column) {
                State::Sound
            } else if bit_of_word(values[row], column) == bit_of_word(data[row], column) {
                State::Right
            } else {
                State::Wrong
            };
            line.push(state);
        }
        grid.push(line);
    }
    grid
}

/// Takes the levels, as Algorithm 1 of document 003 does, and counts for each row and column the levels
/// that took it. Answers the levels used, or refusal 7 if a wrong cell is still left after level K.
pub fn take_levels(shape: Shape, grid: &[Vec<State>]) -> Result<(usize, Counters), u8> {
    let mut counters = Counters {
        rows: vec![0; shape.rows],
        columns: vec![0; shape.columns],
    };
    let mut subgrid_rows = vec![true; shape.rows];
    let mut subgrid_columns = vec![true; shape.columns];
    let mut wrong_in_its_sense = State::Wrong;
    let mut levels = 0;
    loop {
        let mut taken_rows = vec![false; shape.rows];
        let mut taken_columns = vec![false; shape.columns];
        let mut wrong_cell_left = false;
        for row in 0..shape.rows {
            for column in 0..shape.columns {
                let inside = subgrid_rows[row] && subgrid_columns[column];
                if inside && grid[row][column] == wrong_in_its_sense {
                    taken_rows[row] = true;
                    taken_columns[column] = true;
                    wrong_cell_left = true;
                }
            }
        }
        if !wrong_cell_left {
            return Ok((levels, counters));
        }
        if levels == shape.most_levels {
            return Err(7);
        }
        levels += 1;
        for (counter, taken) in counters.rows.iter_mut().zip(&taken_rows) {
            if *taken {
                *counter += 1;
            }
        }
        for (counter, taken) in counters.columns.iter_mut().zip(&taken_columns) {
            if *taken {
                *counter += 1;
            }
        }
        subgrid_rows = taken_rows;
        subgrid_columns = taken_columns;
        wrong_in_its_sense = match wrong_in_its_sense {
            State::Wrong => State::Right,
            _ => State::Wrong,
        };
    }
}
