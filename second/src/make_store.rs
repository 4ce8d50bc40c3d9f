//! Makes sound grid stores: with the counters of a plan, and with foreign ones that mask the faults or do not.

use crate::call::{GridPlan, GridStore};
use crate::counters::{is_inverted, packed_counters, unpacked_counters, Counters};
use crate::grid;
use crate::make_grid::{numbers_of, shape_of, some_counters, some_data, some_lines, some_shape};
use crate::make_plan::plan_of_some_grid;
use crate::random::Random;

/// The store that an accepted plan asks for; the old cells hold junk, past the last column too.
pub fn store_of_plan(random: &mut Random, plan: GridPlan) -> GridStore {
    GridStore {
        numbers: plan.numbers,
        cells: random.words(plan.data.len()),
        data: plan.data,
        mask: plan.mask,
        values: plan.values,
        counters: plan.counters,
    }
}

/// Whether a store is accepted.
fn is_accepted(call: &GridStore) -> bool {
    let mut cells = call.cells.clone();
    let answer = grid::store(
        call.numbers,
        &call.data,
        &call.mask,
        &call.values,
        &call.counters,
        &mut cells,
    );
    answer.number == 0
}

/// Gives one row or column another counter up to K.
fn change_one_counter(random: &mut Random, call: &mut GridStore) {
    let shape = shape_of(call.numbers);
    let mut counters = unpacked_counters(shape, &call.counters);
    let counter = random.between(0, shape.most_levels);
    let line = random.below(shape.rows + shape.columns);
    if line < shape.rows {
        counters.rows[line] = counter;
    } else {
        counters.columns[line - shape.rows] = counter;
    }
    call.counters = packed_counters(shape, &counters);
}

/// Gives rows and columns other counters where the store is accepted with them: a plan would not make most of these.
pub fn change_idle_counters(random: &mut Random, call: &mut GridStore) {
    for _ in 0..random.between(1, 8) {
        let mut changed = call.clone();
        change_one_counter(random, &mut changed);
        if is_accepted(&changed) {
            *call = changed;
        }
    }
}

/// Which cells are stuck: none, all, or so many in a hundred.
fn some_mask(random: &mut Random, rows: usize, columns: usize) -> Vec<u64> {
    let percent = random.pick(&[0, 2, 10, 10, 30, 30, 60, 100]);
    let mut mask = vec![0; rows];
    for word in mask.iter_mut() {
        for column in 0..columns {
            if random.percent(percent) {
                *word |= 1 << column;
            }
        }
    }
    mask
}

/// Gives a stuck cell the value that reads as its data bit, or the other one.
fn set_stuck_value(call: &mut GridStore, counters: &Counters, place: (usize, usize), reads: bool) {
    let (row, column) = place;
    let bit = 1 << column;
    let holds_data = is_inverted(counters, row, column) != reads;
    let data = call.data[row] & bit;
    let held = if holds_data { data } else { data ^ bit };
    call.values[row] = (call.values[row] & !bit) | held;
}

/// A store with any counters up to K whose stuck cells all read as their data bits.
pub fn masking_store(random: &mut Random, greatest: usize) -> GridStore {
    let shape = some_shape(random, greatest);
    let counters = some_counters(random, shape);
    let mut call = GridStore {
        numbers: numbers_of(shape),
        data: some_data(random, shape.rows, shape.columns),
        mask: some_mask(random, shape.rows, shape.columns),
        values: some_lines(random, shape.rows, shape.columns),
        counters: packed_counters(shape, &counters),
        cells: random.words(shape.rows),
    };
    for row in 0..shape.rows {
        for column in 0..shape.columns {
            if (call.mask[row] >> column) & 1 == 1 {
                set_stuck_value(&mut call, &counters, (row, column), true);
            }
        }
    }
    call
}

/// Such a store with stuck cells that read wrong: mostly one alone, in a corner or anywhere.
pub fn misreading_store(random: &mut Random, greatest: usize) -> GridStore {
    let mut call = masking_store(random, greatest);
    let shape = shape_of(call.numbers);
    let counters = unpacked_counters(shape, &call.counters);
    let count = if random.percent(80) {
        1
    } else {
        random.between(2, 5)
    };
    for _ in 0..count {
        let any = (random.below(shape.rows), random.below(shape.columns));
        let place = random.pick(&[
            (0, 0),
            (0, shape.columns - 1),
            (shape.rows - 1, 0),
            (shape.rows - 1, shape.columns - 1),
            (shape.rows - 1, any.1),
            (any.0, shape.columns - 1),
            any,
        ]);
        call.mask[place.0] |= 1 << place.1;
        set_stuck_value(&mut call, &counters, place, false);
    }
    call
}

/// A store with the faults of some plan and counters that it did not make: all 0, a few changed, or anything.
pub fn store_with_foreign_counters(random: &mut Random, greatest: usize) -> GridStore {
    let mut plan = plan_of_some_grid(random, greatest);
    let shape = shape_of(plan.numbers);
    let answer = grid::plan(
        plan.numbers,
        &plan.data,
        &plan.mask,
        &plan.values,
        &mut plan.counters,
    );
    let kind = random.below(3);
    if kind == 0 {
        plan.counters.fill(0);
    } else if kind == 1 || answer.number != 0 {
        plan.counters = packed_counters(shape, &some_counters(random, shape));
    }
    let mut call = store_of_plan(random, plan);
    if kind == 2 {
        for _ in 0..random.between(1, 3) {
            change_one_counter(random, &mut call);
        }
    }
    call
}

/// A store with foreign counters of any kind and K up to the greatest.
pub fn some_store(random: &mut Random, greatest: usize) -> GridStore {
    match random.below(3) {
        0 => masking_store(random, greatest),
        1 => misreading_store(random, greatest),
        _ => store_with_foreign_counters(random, greatest),
    }
}
