//! Calls with long buffers: each buffer of each call in turn, and calls whose numbers would ask for such lengths.

use crate::call::{Call, GridPlan, GridRead, GridStore, PointerRead, PointerWrite, MOST_ELEMENTS};

/// The two lengths, given in turn to the buffers of a call.
const LENGTHS: [usize; 2] = [513, MOST_ELEMENTS];

/// What stands in the buffers that a call fills.
const JUNK_BYTE: u8 = 0xa5;
const JUNK_WORD: u64 = 0xa5a5_a5a5_a5a5_a5a5;

/// Lengthens a buffer of bytes; neighbours differ, so that a line shows which byte is which.
fn lengthen_bytes(buffer: &mut Vec<u8>, length: usize) {
    buffer.extend((buffer.len()..length).map(|place| (7 * place + place / 256) as u8));
}

/// Lengthens a buffer of words; all of them differ.
fn lengthen_words(buffer: &mut Vec<u64>, length: usize) {
    buffer.extend(
        (buffer.len()..length).map(|place| (place as u64).wrapping_mul(0x9e37_79b9_7f4a_7c15)),
    );
}

/// With n = 819 the metadata would have 1,024 bytes.
const ENTRIES_THAT_ASK: u64 = 819;

/// The write of case P4, whose lengths are right.
fn pointer_write() -> PointerWrite {
    let mut stuck = vec![0; 64];
    stuck[0] = 0x08;
    stuck[37] = 0x10;
    PointerWrite {
        n: 2,
        data: vec![0; 64],
        mask: stuck.clone(),
        values: stuck,
        cells: vec![JUNK_BYTE; 64],
        metadata: vec![0; 3],
    }
}

/// The read of what case P4 stores.
fn pointer_read() -> PointerRead {
    PointerRead {
        n: 2,
        cells: pointer_write().values,
        metadata: vec![0x07, 0x60, 0x09],
        output: vec![JUNK_BYTE; 64],
    }
}

/// The plan of case G6, whose lengths are right.
fn grid_plan() -> GridPlan {
    GridPlan {
        numbers: [3, 3, 3],
        data: vec![0; 3],
        mask: vec![3, 6, 4],
        values: vec![1, 2, 4],
        counters: vec![JUNK_BYTE; 2],
    }
}

/// The store of case G6 with the counters of its plan, whose lengths are right.
fn grid_store() -> GridStore {
    let plan = grid_plan();
    GridStore {
        numbers: plan.numbers,
        data: plan.data,
        mask: plan.mask,
        values: plan.values,
        counters: vec![0x5e, 0x0b],
        cells: vec![JUNK_WORD; 3],
    }
}

/// The read of what case G6 stores.
fn grid_read() -> GridRead {
    GridRead {
        numbers: [3, 3, 3],
        cells: vec![1, 3, 7],
        counters: vec![0x5e, 0x0b],
        output: vec![JUNK_WORD; 3],
    }
}

/// Pointer writes with one long buffer, refused with 2, and one with n out of range, refused with 1.
fn pointer_writes() -> Vec<Call> {
    let mut calls = Vec::new();
    for place in 0..5 {
        let mut call = pointer_write();
        let buffers = [
            &mut call.data,
            &mut call.mask,
            &mut call.values,
            &mut call.cells,
            &mut call.metadata,
        ];
        lengthen_bytes(buffers[place], LENGTHS[place % 2]);
        calls.push(Call::PointerWrite(call));
    }
    let mut call = pointer_write();
    call.n = ENTRIES_THAT_ASK;
    call.metadata.resize(MOST_ELEMENTS, 0);
    calls.push(Call::PointerWrite(call));
    calls
}

/// Pointer reads with one long buffer, refused with 2, and one with n out of range, refused with 1.
fn pointer_reads() -> Vec<Call> {
    let mut calls = Vec::new();
    for place in 0..3 {
        let mut call = pointer_read();
        let buffers = [&mut call.cells, &mut call.metadata, &mut call.output];
        lengthen_bytes(buffers[place], LENGTHS[place % 2]);
        calls.push(Call::PointerRead(call));
    }
    let mut call = pointer_read();
    call.n = ENTRIES_THAT_ASK;
    call.metadata.resize(MOST_ELEMENTS, 0);
    calls.push(Call::PointerRead(call));
    calls
}

/// The bytes of counters, two bits each, for 1,024 rows and 3 columns.
fn counter_bytes_that_ask() -> usize {
    (2 * (MOST_ELEMENTS + 3)).div_ceil(8)
}

/// Grid plans with one long buffer, refused with 2, and one with the rows out of range, refused with 1.
fn grid_plans() -> Vec<Call> {
    let mut calls = Vec::new();
    for place in 0..4 {
        let mut call = grid_plan();
        let length = LENGTHS[place % 2];
        match place {
            0 => lengthen_words(&mut call.data, length),
            1 => lengthen_words(&mut call.mask, length),
            2 => lengthen_words(&mut call.values, length),
            _ => lengthen_bytes(&mut call.counters, length),
        }
        calls.push(Call::GridPlan(call));
    }
    let mut call = grid_plan();
    call.numbers[0] = MOST_ELEMENTS as u64;
    call.data.resize(MOST_ELEMENTS, 0);
    call.mask.resize(MOST_ELEMENTS, 0);
    call.values.resize(MOST_ELEMENTS, 0);
    lengthen_bytes(&mut call.counters, counter_bytes_that_ask());
    calls.push(Call::GridPlan(call));
    calls
}

/// Grid stores with one long buffer, refused with 2, and one with the rows out of range, refused with 1.
fn grid_stores() -> Vec<Call> {
    let mut calls = Vec::new();
    for place in 0..5 {
        let mut call = grid_store();
        let length = LENGTHS[place % 2];
        match place {
            0 => lengthen_words(&mut call.data, length),
            1 => lengthen_words(&mut call.mask, length),
            2 => lengthen_words(&mut call.values, length),
            3 => lengthen_bytes(&mut call.counters, length),
            _ => lengthen_words(&mut call.cells, length),
        }
        calls.push(Call::GridStore(call));
    }
    let mut call = grid_store();
    call.numbers[0] = MOST_ELEMENTS as u64;
    call.data.resize(MOST_ELEMENTS, 0);
    call.mask.resize(MOST_ELEMENTS, 0);
    call.values.resize(MOST_ELEMENTS, 0);
    call.counters.resize(counter_bytes_that_ask(), 0);
    lengthen_words(&mut call.cells, MOST_ELEMENTS);
    calls.push(Call::GridStore(call));
    calls
}

/// Grid reads with one long buffer, refused with 2, and one with the rows out of range, refused with 1.
fn grid_reads() -> Vec<Call> {
    let mut calls = Vec::new();
    for place in 0..3 {
        let mut call = grid_read();
        let length = LENGTHS[place % 2];
        match place {
            0 => lengthen_words(&mut call.cells, length),
            1 => lengthen_bytes(&mut call.counters, length),
            _ => lengthen_words(&mut call.output, length),
        }
        calls.push(Call::GridRead(call));
    }
    let mut call = grid_read();
    call.numbers[0] = MOST_ELEMENTS as u64;
    call.cells.resize(MOST_ELEMENTS, 0);
    call.counters.resize(counter_bytes_that_ask(), 0);
    lengthen_words(&mut call.output, MOST_ELEMENTS);
    calls.push(Call::GridRead(call));
    calls
}

/// All the calls with long buffers, by their tags.
pub fn all() -> Vec<Call> {
    [
        pointer_writes(),
        pointer_reads(),
        grid_plans(),
        grid_reads(),
        grid_stores(),
    ]
    .concat()
}
