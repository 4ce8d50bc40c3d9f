//! The edges of the grid calls, both sides of each: G9 and G10 of document 01, bits past the last column, spare bits
//! and lengths.

use crate::cases_pointer::Case;
use crate::grid_case::{block, plan, read, store, store_over, Block};

/// The block of G1 with other numbers.
fn g1_with(numbers: [u64; 3]) -> Block {
    block(numbers, [&[1, 2], &[0, 0], &[0, 0]])
}

/// G9: K, the rows and the columns beside their limits. Before A8, K = 4 was outside; now it asks for two bytes of
/// counters. `cases_levels.rs` has K = 8.
fn nine() -> Vec<Case> {
    let far_level = (1 << 32) + 1;
    vec![
        plan("G9, K = 0", &g1_with([2, 2, 0]), 1),
        plan("G9, K = 1", &g1_with([2, 2, 1]), 1),
        plan("G9, K = 3", &g1_with([2, 2, 3]), 1),
        plan("G9, K = 4", &g1_with([2, 2, 4]), 1),
        store("G9 store, K = 0", &g1_with([2, 2, 0]), &[0x00]),
        store("G9 store, K = 1", &g1_with([2, 2, 1]), &[0x00]),
        store("G9 store, K = 3", &g1_with([2, 2, 3]), &[0x00]),
        store("G9 store, K = 4", &g1_with([2, 2, 4]), &[0x00]),
        read("G9 read, K = 0", [2, 2, 0], &[1, 2], &[0x00]),
        read("G9 read, K = 1", [2, 2, 1], &[1, 2], &[0x00]),
        read("G9 read, K = 3", [2, 2, 3], &[1, 2], &[0x00]),
        read("G9 read, K = 4", [2, 2, 4], &[1, 2], &[0x00]),
        plan("G9, K = 2^32 + 1", &g1_with([2, 2, far_level]), 1),
        plan("G9, rows 0", &g1_with([0, 2, 1]), 1),
        plan("G9, columns 65", &g1_with([2, 65, 1]), 1),
        store(
            "G9 store, K = 2^32 + 1",
            &g1_with([2, 2, far_level]),
            &[0x00],
        ),
        store("G9 store, rows 0", &g1_with([0, 2, 1]), &[0x00]),
        store("G9 store, columns 65", &g1_with([2, 65, 1]), &[0x00]),
        store(
            "G9 store, columns 2^64 - 1",
            &g1_with([2, u64::MAX, 1]),
            &[0x00],
        ),
        read("G9 read, rows 2^64 - 1", [u64::MAX, 2, 1], &[1, 2], &[0x00]),
        read("G9 read, columns 256 + 2", [2, 258, 1], &[1, 2], &[0x00]),
    ]
}

/// G10: counters above K, and the highest that are not.
fn ten() -> Vec<Case> {
    let two = g1_with([2, 2, 2]);
    let three = g1_with([2, 2, 3]);
    vec![
        read("G10, K = 2, row counter 2", [2, 2, 2], &[1, 2], &[0x56]),
        read("G10, K = 2, row counter 3", [2, 2, 2], &[1, 2], &[0x57]),
        read("G10, K = 3, row counter 3", [2, 2, 3], &[1, 2], &[0x57]),
        read("G10, K = 2, column counter 2", [2, 2, 2], &[1, 2], &[0x80]),
        read("G10, K = 2, column counter 3", [2, 2, 2], &[1, 2], &[0xc0]),
        read("G10, K = 2, counters 2", [2, 2, 2], &[1, 2], &[0xaa]),
        read("G10, K = 3, counters 3", [2, 2, 3], &[1, 2], &[0xff]),
        store("G10 store, K = 2, row counter 2", &two, &[0x56]),
        store("G10 store, K = 2, row counter 3", &two, &[0x57]),
        store("G10 store, K = 3, row counter 3", &three, &[0x57]),
        store("G10 store, K = 2, column counter 2", &two, &[0x80]),
        store("G10 store, K = 2, column counter 3", &two, &[0xc0]),
        store("G10 store, K = 2, counters 2", &two, &[0xaa]),
        store("G10 store, K = 3, counters 3", &three, &[0xff]),
    ]
}

/// Bits past the last column in each buffer of words, and spare bits of counters.
fn bits_past() -> Vec<Case> {
    let square = [2, 2, 1];
    let data = block(square, [&[1, 6], &[0, 0], &[0, 0]]);
    let mask = block(square, [&[1, 2], &[4, 0], &[0, 0]]);
    let values = block(square, [&[1, 2], &[0, 0], &[0, 1 << 63]]);
    let g2 = block([1, 1, 1], [&[1], &[1], &[0]]);
    let full = block([1, 64, 1], [&[1 << 63], &[1 << 63], &[0]]);
    vec![
        plan("G1, data past the columns", &data, 1),
        plan("G1, mask past the columns", &mask, 1),
        plan("G1, values past the columns", &values, 1),
        store("G1 store, data past the columns", &data, &[0x00]),
        store("G1 store, mask past the columns", &mask, &[0x00]),
        store("G1 store, values past the columns", &values, &[0x00]),
        store("G1 store, spare bit 1", &g1_with(square), &[0x10]),
        store("G1 store, last spare bit 1", &g1_with(square), &[0x80]),
        store("G2 store, spare bit 1", &g2, &[0x07]),
        plan("64 columns, last cell wrong", &full, 9),
        store(
            "64 columns, store",
            &full,
            &[0x01, 0, 0, 0, 0, 0, 0, 0, 0x01],
        ),
    ]
}

/// The plan of G1 with buffers of these lengths: data, mask, values and counters.
fn plan_lengths(name: &str, lengths: [usize; 4]) -> Case {
    let mut block = g1_with([2, 2, 1]);
    block.data.resize(lengths[0], 0);
    block.mask.resize(lengths[1], 0);
    block.values.resize(lengths[2], 0);
    plan(name, &block, lengths[3])
}

/// The store of G1 with buffers of these lengths: data, mask, values, counters and cells.
fn store_lengths(name: &str, lengths: [usize; 5]) -> Case {
    let mut block = g1_with([2, 2, 1]);
    block.data.resize(lengths[0], 0);
    block.mask.resize(lengths[1], 0);
    block.values.resize(lengths[2], 0);
    store_over(name, &block, &vec![0; lengths[3]], &vec![9; lengths[4]])
}

/// Each buffer one element short and one long.
fn lengths() -> Vec<Case> {
    vec![
        plan_lengths("G1, data one word short", [1, 2, 2, 1]),
        plan_lengths("G1, data one word long", [3, 2, 2, 1]),
        plan_lengths("G1, mask one word short", [2, 1, 2, 1]),
        plan_lengths("G1, mask one word long", [2, 3, 2, 1]),
        plan_lengths("G1, values one word short", [2, 2, 1, 1]),
        plan_lengths("G1, values one word long", [2, 2, 3, 1]),
        plan_lengths("G1, counters one byte short", [2, 2, 2, 0]),
        plan_lengths("G1, counters one byte long", [2, 2, 2, 2]),
        store_lengths("G1 store, data one word short", [1, 2, 2, 1, 2]),
        store_lengths("G1 store, data one word long", [3, 2, 2, 1, 2]),
        store_lengths("G1 store, mask one word short", [2, 1, 2, 1, 2]),
        store_lengths("G1 store, mask one word long", [2, 3, 2, 1, 2]),
        store_lengths("G1 store, values one word short", [2, 2, 1, 1, 2]),
        store_lengths("G1 store, values one word long", [2, 2, 3, 1, 2]),
        store_lengths("G1 store, counters one byte short", [2, 2, 2, 0, 2]),
        store_lengths("G1 store, counters one byte long", [2, 2, 2, 2, 2]),
        store_lengths("G1 store, cells one word short", [2, 2, 2, 1, 1]),
        store_lengths("G1 store, cells one word long", [2, 2, 2, 1, 3]),
        store_lengths("G1 store, no buffer has anything", [0, 0, 0, 0, 0]),
    ]
}

/// Several refusals at once, of which the lowest is the answer.
fn several() -> Vec<Case> {
    // A data word reaches past the columns, and cell (0,0) is wrong.
    let words: [&[u64]; 3] = [&[1, 6], &[1, 0], &[0, 0]];
    let wrong: [&[u64]; 3] = [&[1, 2], &[1, 0], &[0, 0]];
    let past_a_loop = block([2, 2, 1], [&[0, 4], &[3, 3], &[1, 2]]);
    vec![
        store_over(
            // Before A8 this was 1, for K = 4; now two bytes of counters are due.
            "K = 4, 2 before 3",
            &block([2, 2, 4], words),
            &[0xff],
            &[9],
        ),
        store_over(
            "2 before 3, 4 and 13",
            &block([2, 2, 2], words),
            &[0x03],
            &[9],
        ),
        store("3 before 4 and 13", &block([2, 2, 2], words), &[0x03]),
        store("4 before 13", &block([2, 2, 2], wrong), &[0x03]),
        store("13 alone", &block([2, 2, 3], wrong), &[0x03]),
        plan("Plan, 1 before 2 and 3", &block([2, 2, 0], words), 0),
        plan("Plan, 2 before 3", &block([2, 2, 2], words), 2),
        plan("Plan, 3 before 7", &past_a_loop, 1),
    ]
}

/// All the edges.
pub fn all() -> Vec<Case> {
    [nine(), ten(), bits_past(), lengths(), several()].concat()
}
