//! Checks grid plans, stores and reads a second way: chains in place of levels, reading back, words in place of cells,
//! and the bits of counters in place of counters.

use crate::bits::{bit_of_word, bytes_that_hold};
use crate::call::{GridPlan, GridRead, GridStore};
use crate::chains::{verdict, Verdict};
use crate::check_convert::check_larger_plans;
use crate::check_index::{check_index, check_no_index};
use crate::counters::{counter_width, stored_counter};
use crate::grid::{self, Answer, ReadAnswer};
use crate::levels::states;

/// Checks a plan already made: that it names no counter, refusal 7 and L by chains, and of an accepted one its counts,
/// and its counters by a store with them and by the plans at every larger K.
pub fn check_plan(call: &GridPlan, answer: Answer) -> Result<(), String> {
    check_no_index(answer.number, answer.index)?;
    if answer.number == 0 || answer.number == 7 {
        check_by_chains(call, answer)?;
    }
    if answer.number == 0 {
        check_fault_counts([&call.data, &call.mask, &call.values], answer)?;
        check_bounds_of_levels(call, answer)?;
        try_store(call, answer)?;
        check_larger_plans(call, answer)?;
    }
    Ok(())
}

/// Wrong and right stuck cells are together F, and the words of data and values differ at as many stuck cells as are
/// wrong.
fn check_fault_counts(block: [&[u64]; 3], answer: Answer) -> Result<(), String> {
    let [data, mask, values] = block;
    let mut differing = 0;
    for row in 0..data.len() {
        differing += ((data[row] ^ values[row]) & mask[row]).count_ones();
    }
    if answer.wrong + answer.right != answer.stuck || answer.wrong != differing as usize {
        return Err(format!(
            "data and values differ at {differing} stuck cells, and the answer is {answer:?}"
        ));
    }
    Ok(())
}

/// L of an accepted plan is at most the number of wrong cells, and at most one more than that of right ones: the
/// 2L - 1 cells of a chain are all different where no chain goes round, and every second one is wrong.
fn check_bounds_of_levels(call: &GridPlan, answer: Answer) -> Result<(), String> {
    if answer.levels > answer.wrong || answer.levels > answer.right + 1 {
        return Err(format!(
            "L is above the wrong cells, or above the right ones and one more: {answer:?} of {call:x?}"
        ));
    }
    Ok(())
}

/// Checks refusal 7 and L of a plan, whose numbers, lengths and words were all judged good, by chains.
fn check_by_chains(call: &GridPlan, answer: Answer) -> Result<(), String> {
    let columns = call.numbers[1] as usize;
    let most_levels = call.numbers[2] as usize;
    let seen = states(columns, &call.data, &call.mask, &call.values);
    let by_levels = if answer.number == 7 {
        Verdict::Refusal7
    } else {
        Verdict::Levels(answer.levels)
    };
    let by_chains = verdict(&seen, most_levels);
    if by_levels != by_chains {
        return Err(format!(
            "levels say {by_levels:?} and chains say {by_chains:?}"
        ));
    }
    Ok(())
}

/// Makes a store with the counters of an accepted plan: it has to be accepted with the same counts and to read back.
fn try_store(call: &GridPlan, planned: Answer) -> Result<(), String> {
    let mut store = GridStore {
        numbers: call.numbers,
        data: call.data.clone(),
        mask: call.mask.clone(),
        values: call.values.clone(),
        counters: call.counters.clone(),
        cells: vec![u64::MAX; call.data.len()],
    };
    let stored = grid::store(
        store.numbers,
        &store.data,
        &store.mask,
        &store.values,
        &store.counters,
        &mut store.cells,
    );
    if stored != planned {
        return Err(format!(
            "a plan answers {planned:?} and a store with its counters {stored:?}"
        ));
    }
    check_store(&store, stored)
}

/// Checks a read already made: which counter it names.
pub fn check_read(call: &GridRead, answer: ReadAnswer) -> Result<(), String> {
    check_index(call.numbers, &call.counters, answer.number, answer.index)
}

/// Checks a store already made: which counter it names, what an accepted one left, and the reason of one that is
/// refused with 13.
pub fn check_store(call: &GridStore, answer: Answer) -> Result<(), String> {
    check_index(call.numbers, &call.counters, answer.number, answer.index)?;
    match answer.number {
        0 => {
            check_stuck_cells(call)?;
            check_reading(call)?;
            check_fault_counts([&call.data, &call.mask, &call.values], answer)?;
            check_counts(call, answer)
        }
        13 if !has_misreading_cell(call) => Err(String::from(
            "a store is refused with 13 and every stuck cell reads as its data bit",
        )),
        _ => Ok(()),
    }
}

/// Every stuck cell holds its stuck value.
fn check_stuck_cells(call: &GridStore) -> Result<(), String> {
    for row in 0..call.data.len() {
        for column in 0..call.numbers[1] as usize {
            let stored = bit_of_word(call.cells[row], column);
            let stuck = bit_of_word(call.mask[row], column);
            if stuck && stored != bit_of_word(call.values[row], column) {
                return Err(format!("stuck cell ({row},{column}) of a grid moved"));
            }
        }
    }
    Ok(())
}

/// The data comes back by the read.
fn check_reading(call: &GridStore) -> Result<(), String> {
    let mut shown = vec![0; call.data.len()];
    let answer = grid::read(call.numbers, &call.cells, &call.counters, &mut shown);
    if answer.number != 0 || shown != call.data {
        return Err(format!(
            "a grid store does not read back (read answers {answer:?})"
        ));
    }
    Ok(())
}

/// L is a counter and none is above it; F is the number of ones of the mask words.
fn check_counts(call: &GridStore, answer: Answer) -> Result<(), String> {
    let width = counter_width(call.numbers[2] as usize);
    let lines = (call.numbers[0] + call.numbers[1]) as usize;
    let counters: Vec<usize> = (0..lines)
        .map(|place| stored_counter(&call.counters, width, place))
        .collect();
    let is_greatest = counters.contains(&answer.levels)
        && counters.iter().all(|counter| *counter <= answer.levels);
    let ones: u32 = call.mask.iter().map(|word| word.count_ones()).sum();
    if !is_greatest || answer.stuck != ones as usize {
        return Err(format!(
            "a store answers {answer:?} for counters {counters:?} and {ones} stuck cells"
        ));
    }
    Ok(())
}

/// Whether a stuck cell's data bit, inverted as the counters ask, is not its stuck value.
fn has_misreading_cell(call: &GridStore) -> bool {
    let [rows, columns, most_levels] = call.numbers.map(|number| number as usize);
    let width = counter_width(most_levels);
    if call.counters.len() != bytes_that_hold((rows + columns) * width) {
        return false;
    }
    (0..rows).any(|row| {
        (0..columns).any(|column| {
            let of_row = stored_counter(&call.counters, width, row);
            let of_column = stored_counter(&call.counters, width, rows + column);
            let inverted = of_row.min(of_column) % 2 == 1;
            let to_hold = bit_of_word(call.data[row], column) != inverted;
            bit_of_word(call.mask[row], column) && to_hold != bit_of_word(call.values[row], column)
        })
    })
}
