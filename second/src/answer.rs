//! Makes a call, checks what it did a second way, and tells the outcome in one line.

use crate::bits::bit_of_bytes;
use crate::call::{
    Call, GridConvert, GridPlan, GridRead, GridStore, PointerRead, PointerWrite, Transfer,
};
use crate::{check_convert, check_grid, check_transfer, convert, grid, pointer, transfer};

/// The outcome of a call: 0 or the refusal, the counts of a write, a plan or a store, of a grid read, store, convert
/// or transfer the index of the first counter above K, and of a transfer the numbers of its steps.
#[derive(Clone, Debug, PartialEq, Eq)]
pub struct Outcome {
    pub number: u8,
    pub counts: Vec<usize>,
    pub index: Option<usize>,
    pub steps: Vec<u8>,
}

/// Bytes as two hex digits each, or `-` if there are none.
fn hex_of_bytes(bytes: &[u8]) -> String {
    if bytes.is_empty() {
        return String::from("-");
    }
    bytes.iter().map(|byte| format!("{byte:02x}")).collect()
}

/// Words as sixteen hex digits each, highest first, or `-` if there are none.
fn hex_of_words(words: &[u64]) -> String {
    if words.is_empty() {
        return String::from("-");
    }
    words.iter().map(|word| format!("{word:016x}")).collect()
}

/// Checks an accepted pointer write: the data comes back by the read, and every stuck cell holds its stuck value.
fn check_pointer_write(call: &PointerWrite) -> Result<(), String> {
    let mut shown = vec![0; call.data.len()];
    let number = pointer::read(call.n, &call.cells, &call.metadata, &mut shown);
    if number != 0 || shown != call.data {
        return Err(format!(
            "a pointer write does not read back (read answers {number})"
        ));
    }
    for position in 0..pointer::POSITIONS {
        let stored = bit_of_bytes(&call.cells, position);
        if bit_of_bytes(&call.mask, position) && stored != bit_of_bytes(&call.values, position) {
            return Err(format!("stuck cell {position} of a pointer row moved"));
        }
    }
    Ok(())
}

/// Makes a pointer write and checks it.
fn make_pointer_write(call: &mut PointerWrite) -> Result<Outcome, String> {
    let answer = pointer::write(
        call.n,
        &call.data,
        &call.mask,
        &call.values,
        &mut call.cells,
        &mut call.metadata,
    );
    if answer.number == 0 {
        check_pointer_write(call)?;
    }
    Ok(Outcome {
        number: answer.number,
        counts: vec![answer.active, answer.new],
        index: None,
        steps: vec![],
    })
}

/// Makes a pointer read.
fn make_pointer_read(call: &mut PointerRead) -> Outcome {
    Outcome {
        number: pointer::read(call.n, &call.cells, &call.metadata, &mut call.output),
        counts: vec![],
        index: None,
        steps: vec![],
    }
}

/// The four counts of a grid plan or a grid store.
fn grid_counts(answer: grid::Answer) -> Vec<usize> {
    vec![answer.levels, answer.stuck, answer.wrong, answer.right]
}

/// Makes a grid plan and checks it.
fn make_grid_plan(call: &mut GridPlan) -> Result<Outcome, String> {
    let answer = grid::plan(
        call.numbers,
        &call.data,
        &call.mask,
        &call.values,
        &mut call.counters,
    );
    check_grid::check_plan(call, answer)?;
    Ok(Outcome {
        number: answer.number,
        counts: grid_counts(answer),
        index: None,
        steps: vec![],
    })
}

/// Makes a grid store and checks it.
fn make_grid_store(call: &mut GridStore) -> Result<Outcome, String> {
    let answer = grid::store(
        call.numbers,
        &call.data,
        &call.mask,
        &call.values,
        &call.counters,
        &mut call.cells,
    );
    check_grid::check_store(call, answer)?;
    Ok(Outcome {
        number: answer.number,
        counts: grid_counts(answer),
        index: Some(answer.index),
        steps: vec![],
    })
}

/// Makes a grid read and checks it.
fn make_grid_read(call: &mut GridRead) -> Result<Outcome, String> {
    let answer = grid::read(call.numbers, &call.cells, &call.counters, &mut call.output);
    check_grid::check_read(call, answer)?;
    Ok(Outcome {
        number: answer.number,
        counts: vec![],
        index: Some(answer.index),
        steps: vec![],
    })
}

/// Makes a grid convert and checks it.
fn make_grid_convert(call: &mut GridConvert) -> Result<Outcome, String> {
    let output_before = call.output.clone();
    let answer = convert::convert(call.numbers, &call.counters, &mut call.output);
    check_convert::check_convert(call, &output_before, answer)?;
    Ok(Outcome {
        number: answer.number,
        counts: vec![],
        index: Some(answer.index),
        steps: vec![],
    })
}

/// Makes a whole transfer and checks it.
fn make_transfer(call: &mut Transfer) -> Result<Outcome, String> {
    let output_before = call.output.clone();
    let answer = transfer::transfer(call.numbers, &call.bytes, &call.script, &mut call.output);
    check_transfer::check_transfer(call, &output_before, &answer)?;
    Ok(Outcome {
        number: answer.number,
        counts: vec![],
        index: Some(answer.index),
        steps: answer.steps,
    })
}

/// Makes a call, which changes its buffers as documents 01 and 02 say; an error if a check fails.
pub fn make(call: &mut Call) -> Result<Outcome, String> {
    match call {
        Call::PointerWrite(c) => make_pointer_write(c),
        Call::PointerRead(c) => Ok(make_pointer_read(c)),
        Call::GridPlan(c) => make_grid_plan(c),
        Call::GridRead(c) => make_grid_read(c),
        Call::GridStore(c) => make_grid_store(c),
        Call::GridConvert(c) => make_grid_convert(c),
        Call::Transfer(c) => make_transfer(c),
    }
}

/// The line of a call already made: the number, the counts, the index, and the buffers that the call may change.
pub fn line(call: &Call, outcome: &Outcome) -> String {
    let mut parts = vec![outcome.number.to_string()];
    for figure in outcome.counts.iter().chain(&outcome.index) {
        parts.push(figure.to_string());
    }
    match call {
        Call::PointerWrite(c) => {
            parts.push(hex_of_bytes(&c.cells));
            parts.push(hex_of_bytes(&c.metadata));
        }
        Call::PointerRead(c) => parts.push(hex_of_bytes(&c.output)),
        Call::GridPlan(c) => parts.push(hex_of_bytes(&c.counters)),
        Call::GridRead(c) => parts.push(hex_of_words(&c.output)),
        Call::GridStore(c) => parts.push(hex_of_words(&c.cells)),
        Call::GridConvert(c) => parts.push(hex_of_bytes(&c.output)),
        Call::Transfer(c) => {
            parts.push(hex_of_words(&c.output));
            parts.push(hex_of_bytes(&outcome.steps));
        }
    }
    parts.join(" ")
}
