//! Faults of a grid placed on purpose: staircases of alternating cells, loops, chains with right ends, and noise.

use crate::levels::State;
use crate::random::Random;

/// A grid without a fault.
pub fn sound_grid(rows: usize, columns: usize) -> Vec<Vec<State>> {
    vec![vec![State::Sound; columns]; rows]
}

/// Right for wrong and wrong for right.
fn opposite(state: State) -> State {
    match state {
        State::Right => State::Wrong,
        State::Wrong => State::Right,
        State::Sound => State::Sound,
    }
}

/// Places so many alternating cells, each in the row or the column of the one before in turn, as far as
/// the grid has rows and columns for them.
pub fn staircase(random: &mut Random, grid: &mut [Vec<State>], length: usize, first: State) {
    let rows = random.order(grid.len());
    let columns = random.order(grid[0].len());
    let mut by_row = random.bit();
    let (mut row, mut column, mut state) = (0, 0, first);
    for _ in 0..length {
        if row == rows.len() || column == columns.len() {
            return;
        }
        grid[rows[row]][columns[column]] = state;
        state = opposite(state);
        if by_row {
            column += 1;
        } else {
            row += 1;
        }
        by_row = !by_row;
    }
}

/// Places a loop of alternating cells; at times one cell is left out or turned over.
fn circle(random: &mut Random, grid: &mut [Vec<State>]) {
    let most = grid.len().min(grid[0].len());
    if most < 2 {
        return;
    }
    let corners = random.between(2, most.min(5));
    let rows = random.order(grid.len());
    let columns = random.order(grid[0].len());
    let first = random.pick(&[State::Right, State::Wrong]);
    for corner in 0..corners {
        grid[rows[corner]][columns[corner]] = first;
        grid[rows[corner]][columns[(corner + 1) % corners]] = opposite(first);
    }
    let spoilt = random.below(corners);
    match random.below(6) {
        0 => grid[rows[spoilt]][columns[spoilt]] = State::Sound,
        1 => grid[rows[spoilt]][columns[(spoilt + 1) % corners]] = State::Sound,
        2 => grid[rows[spoilt]][columns[spoilt]] = opposite(first),
        _ => {}
    }
}

/// Makes some cells stuck, so many in a hundred, and so many in a hundred of those wrong.
fn scatter(random: &mut Random, grid: &mut [Vec<State>], stuck: usize, wrong: usize) {
    for line in grid.iter_mut() {
        for cell in line.iter_mut() {
            if random.percent(stuck) {
                *cell = if random.percent(wrong) {
                    State::Wrong
                } else {
                    State::Right
                };
            }
        }
    }
}

/// Gives up to so many cells anywhere a state.
fn sprinkle(random: &mut Random, grid: &mut [Vec<State>], most: usize, states: &[State]) {
    for _ in 0..random.between(1, most) {
        let row = random.below(grid.len());
        let column = random.below(grid[0].len());
        grid[row][column] = random.pick(states);
    }
}

/// A length of a chain around those that decide L and refusal 7 for K.
fn some_length(random: &mut Random, most_levels: usize) -> usize {
    let deciding = 2 * most_levels;
    random.pick(&[
        1,
        2,
        3,
        4,
        5,
        7,
        deciding - 1,
        deciding - 1,
        deciding,
        deciding + 1,
        deciding + 1,
        deciding + 2,
    ])
}

/// Some pattern of faults for K levels.
pub fn some_faults(
    random: &mut Random,
    rows: usize,
    columns: usize,
    most_levels: usize,
) -> Vec<Vec<State>> {
    let mut grid = sound_grid(rows, columns);
    let length = some_length(random, most_levels);
    let both = [State::Right, State::Wrong];
    match random.below(24) {
        0 => {}
        1..=3 => sprinkle(random, &mut grid, 6, &both),
        4..=6 => {
            let stuck = random.pick(&[3, 10, 25, 50, 80]);
            let wrong = random.pick(&[3, 10, 50, 90]);
            scatter(random, &mut grid, stuck, wrong);
        }
        7 => scatter(random, &mut grid, 100, 0),
        8 => scatter(random, &mut grid, 100, 100),
        9 => scatter(random, &mut grid, 100, 2),
        10..=16 => staircase(random, &mut grid, length, State::Wrong),
        17 | 18 => staircase(random, &mut grid, length, State::Right),
        19 | 20 => circle(random, &mut grid),
        21 => {
            staircase(random, &mut grid, length, State::Wrong);
            circle(random, &mut grid);
        }
        _ => {
            staircase(random, &mut grid, length, State::Wrong);
            let second = some_length(random, most_levels);
            let first = random.pick(&both);
            staircase(random, &mut grid, second, first);
        }
    }
    match random.below(10) {
        0 | 1 => sprinkle(random, &mut grid, 3, &[State::Right]),
        2 => sprinkle(random, &mut grid, 2, &[State::Wrong, State::Sound]),
        _ => {}
    }
    grid
}
