//! Checks conversions a second way (document 02, A8): counters taken anew from the bits of the old and the new bytes,
//! readings with both, and the plans of the same block at every larger K.

use crate::call::{GridConvert, GridPlan};
use crate::check_index::{check_index, counters_in_bytes};
use crate::convert::convert;
use crate::counters::MOST_LEVELS;
use crate::grid::{self, ReadAnswer};

/// Checks a conversion already made: which counter it names, that a refused one left the output as it was, and of an
/// accepted one the counters, the spare bits, the bytes of an equal target and a reading.
pub fn check_convert(
    call: &GridConvert,
    output_before: &[u8],
    answer: ReadAnswer,
) -> Result<(), String> {
    let [rows, columns, most_levels, target] = call.numbers;
    let before = [rows, columns, most_levels];
    let after = [rows, columns, target];
    check_index(before, &call.counters, answer.number, answer.index)?;
    if answer.number != 0 {
        if call.output != output_before {
            return Err(format!("a refused conversion changed its output: {call:?}"));
        }
        return Ok(());
    }
    let old = counters_in_bytes(before, &call.counters);
    let new = counters_in_bytes(after, &call.output);
    let ones: u32 = call.output.iter().map(|byte| byte.count_ones()).sum();
    let ones_of_counters: u32 = new.iter().map(|counter| counter.count_ones()).sum();
    let found = if most_levels > target {
        "the target is smaller than K"
    } else if old.len() as u64 != rows + columns || new != old {
        "the counters are not the same numbers"
    } else if ones != ones_of_counters {
        "a spare bit is 1"
    } else if most_levels == target && call.output != call.counters {
        "an equal target gives other bytes"
    } else {
        return check_same_reading(call, before, after);
    };
    Err(format!("{found}: {call:?}"))
}

/// Cells without a pattern that repeats from row to row, none past the last column.
fn some_cells(rows: u64, columns: u64) -> Vec<u64> {
    (1..=rows)
        .map(|row| row.wrapping_mul(0x9e37_79b9_7f4a_7c15) >> (64 - columns))
        .collect()
}

/// Some cells read with the old counters at K and with the new ones at the target give the same output.
fn check_same_reading(call: &GridConvert, before: [u64; 3], after: [u64; 3]) -> Result<(), String> {
    let cells = some_cells(before[0], before[1]);
    let mut shown_before = vec![0; cells.len()];
    let mut shown_after = vec![u64::MAX; cells.len()];
    let at_k = grid::read(before, &cells, &call.counters, &mut shown_before);
    let at_target = grid::read(after, &cells, &call.output, &mut shown_after);
    if at_k.number != 0 || at_target.number != 0 || shown_before != shown_after {
        return Err(format!(
            "reads at K and at the target answer {at_k:?} and {at_target:?}, or differ: {call:?}"
        ));
    }
    Ok(())
}

/// What an accepted plan gave at K, converted to each larger K, is what the plan of the same block gives there.
pub fn check_larger_plans(call: &GridPlan, planned: grid::Answer) -> Result<(), String> {
    let [rows, columns, most_levels] = call.numbers;
    for target in most_levels + 1..=MOST_LEVELS {
        let numbers = [rows, columns, target];
        let width = if target < 4 { 2 } else { 3 };
        let bytes = ((rows + columns) * width).div_ceil(8) as usize;
        let mut counters = vec![0xff; bytes];
        let answer = grid::plan(numbers, &call.data, &call.mask, &call.values, &mut counters);
        let mut conversion = GridConvert {
            numbers: [rows, columns, most_levels, target],
            counters: call.counters.clone(),
            output: vec![0xff; bytes],
        };
        let output_before = conversion.output.clone();
        let converted = convert(
            conversion.numbers,
            &conversion.counters,
            &mut conversion.output,
        );
        check_convert(&conversion, &output_before, converted)?;
        if answer != planned || converted.number != 0 || conversion.output != counters {
            return Err(format!(
                "a plan answers {planned:?}, at K = {target} {answer:?} with {counters:x?}, and {conversion:x?}"
            ));
        }
    }
    Ok(())
}
