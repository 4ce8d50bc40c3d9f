//! Makes sound grid plans: faults placed on purpose, and plans for a grid that was planned before.

use crate::bits::{bytes_that_hold, word_of};
use crate::call::GridPlan;
use crate::counters::{counter_bits, Shape};
use crate::faults::some_faults;
use crate::levels::State;
use crate::make_deep::deep_faults;
use crate::make_grid::{numbers_of, some_data, some_lines, some_shape};
use crate::random::Random;

/// So many plans in a hundred get a chain of a chosen depth, where K goes above 3.
const PERCENT_DEEP: usize = 60;

/// A plan for a grid with faults placed on purpose and K up to the greatest.
pub fn plan_of_some_grid(random: &mut Random, greatest: usize) -> GridPlan {
    if greatest > 3 && random.percent(PERCENT_DEEP) {
        let (shape, faults) = deep_faults(random, greatest);
        return plan_of_faults(random, shape, &faults);
    }
    let shape = some_shape(random, greatest);
    let faults = some_faults(random, shape.rows, shape.columns, shape.most_levels);
    plan_of_faults(random, shape, &faults)
}

/// A plan for a grid with these faults and any data; the old counters hold junk.
fn plan_of_faults(random: &mut Random, shape: Shape, faults: &[Vec<State>]) -> GridPlan {
    let data = some_data(random, shape.rows, shape.columns);
    let unused = some_lines(random, shape.rows, shape.columns);
    let mut mask = Vec::new();
    let mut values = Vec::new();
    for row in 0..shape.rows {
        let stuck: Vec<bool> = faults[row].iter().map(|f| *f != State::Sound).collect();
        let wrong: Vec<bool> = faults[row].iter().map(|f| *f == State::Wrong).collect();
        let stuck_values = (data[row] ^ word_of(&wrong)) & word_of(&stuck);
        values.push(stuck_values | (unused[row] & !word_of(&stuck)));
        mask.push(word_of(&stuck));
    }
    GridPlan {
        numbers: numbers_of(shape),
        data,
        mask,
        values,
        counters: random.bytes(bytes_that_hold(counter_bits(shape))),
    }
}

/// A further plan for a grid whose last plan was accepted: other data or a few other bits, perhaps one more fault.
pub fn further_plan(random: &mut Random, grid: GridPlan) -> GridPlan {
    let mut call = grid;
    let rows = call.data.len();
    let columns = call.numbers[1] as usize;
    if random.percent(30) {
        call.data = some_data(random, rows, columns);
    } else {
        for _ in 0..random.below(4) {
            let row = random.below(rows);
            call.data[row] ^= 1 << random.below(columns);
        }
    }
    if random.percent(40) {
        let row = random.below(rows);
        call.mask[row] |= 1 << random.below(columns);
    }
    call
}
