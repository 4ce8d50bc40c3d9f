//! Calls that answer index 0 (document 02, A4), though a counter is above K or looks so: a lower refusal applies too, K
//! is another, a cell misreads, or the call is a plan. Beside them what makes the difference.

use crate::cases_pointer::Case;
use crate::grid_case::{block, plan_over, read, read_and_store, read_into, store, store_over};
use crate::grid_case::{stuck, Block, Names};

/// Row counters 1 and 3, column counters 2, 0 and 1, and six spare bits: at K = 2 the first bad one is row 1.
const BAD_ROW_1: [u8; 2] = [0x2d, 0x01];

/// Row counters 0 and 2, column counters 2: none inverts a cell, and at K = 2 none is above K.
const AT_K_FROM_ROW_1: [u8; 2] = [0xa8, 0x02];

/// Two rows of three with one wrong cell, (0,0), and two right ones: these counters mask it if K allows them.
fn masked(numbers: [u64; 3]) -> Block {
    block(numbers, [&[5, 3], &[1, 3], &[4, 3]])
}

/// The same with (1,1) stuck at 0, which would read as 0 in place of 1.
fn misread(numbers: [u64; 3]) -> Block {
    block(numbers, [&[5, 3], &[1, 3], &[4, 1]])
}

/// The same bytes for every K, and counters at K.
fn levels() -> Vec<Case> {
    let all_right = block([2, 3, 2], [&[5, 3], &[1, 3], &[1, 3]]);
    let at_2: Names = ["A4 read, K = 2", "A4 store, K = 2"];
    let at_3: Names = ["A4 read, K = 3", "A4 store, K = 3"];
    let at_4: Names = ["A4 read, K = 4", "A4 store, K = 4"];
    let at_0: Names = ["A4 read, K = 0", "A4 store, K = 0"];
    let at_1: Names = ["A4 read, K = 1", "A4 store, K = 1"];
    let none_above: Names = ["A4 read, counters at K", "A4 store, counters at K"];
    [
        // The other side of all that follow: 4 with index 1.
        read_and_store(at_2, &masked([2, 3, 2]), &BAD_ROW_1),
        // The same counter is not above K: accepted, with four counts that are not 0.
        read_and_store(at_3, &masked([2, 3, 3]), &BAD_ROW_1),
        // In three bits the same bytes hold 5, 5, 4, 0 and 0: 4 with index 0. Before A8 this K was out of range.
        read_and_store(at_4, &masked([2, 3, 4]), &BAD_ROW_1),
        // 1 goes before 4.
        read_and_store(at_0, &masked([2, 3, 0]), &BAD_ROW_1),
        // Counters of one bit take one byte: 2.
        read_and_store(at_1, &masked([2, 3, 1]), &BAD_ROW_1),
        // Accepted, and no index of the first counter that is K.
        read_and_store(none_above, &all_right, &AT_K_FROM_ROW_1),
    ]
    .concat()
}

/// A bad counter and rows or columns out of range: 1.
fn numbers() -> Vec<Case> {
    let no_rows: Names = ["A4 read, rows 0", "A4 store, rows 0"];
    let columns_65: Names = ["A4 read, columns 65", "A4 store, columns 65"];
    [
        read_and_store(no_rows, &masked([0, 3, 2]), &BAD_ROW_1),
        read_and_store(columns_65, &masked([2, 65, 2]), &BAD_ROW_1),
    ]
    .concat()
}

/// A bad counter and a set bit that must be 0, in the counters or past the last column of a word that is read: 3.
fn bits() -> Vec<Case> {
    let numbers = [2, 3, 2];
    let first_spare: Names = ["A4 read, first spare bit", "A4 store, first spare bit"];
    let last_spare: Names = ["A4 read, last spare bit", "A4 store, last spare bit"];
    let data_past: Names = ["A4 read, cells past", "A4 store, data past"];
    let past_in_data = block(numbers, [&[5, 11], &[1, 3], &[4, 3]]);
    let past_in_mask = block(numbers, [&[5, 3], &[1, 3 | 1 << 63], &[4, 3]]);
    let past_in_values = block(numbers, [&[5, 3], &[1, 3], &[12, 3]]);
    [
        read_and_store(first_spare, &masked(numbers), &[0x2d, 0x05]),
        read_and_store(last_spare, &masked(numbers), &[0x2d, 0x81]),
        read_and_store(data_past, &past_in_data, &BAD_ROW_1),
        vec![
            store("A4 store, mask past", &past_in_mask, &BAD_ROW_1),
            store("A4 store, values past", &past_in_values, &BAD_ROW_1),
        ],
    ]
    .concat()
}

/// The store with buffers of these lengths: data, mask, values, counters and cells.
fn store_lengths(name: &str, lengths: [usize; 5]) -> Case {
    let mut block = masked([2, 3, 2]);
    let mut counters = BAD_ROW_1.to_vec();
    block.data.resize(lengths[0], 0);
    block.mask.resize(lengths[1], 0);
    block.values.resize(lengths[2], 0);
    counters.resize(lengths[3], 0);
    store_over(name, &block, &counters, &vec![9; lengths[4]])
}

/// The read with buffers of these lengths: cells, counters and output.
fn read_lengths(name: &str, lengths: [usize; 3]) -> Case {
    let mut cells = vec![5, 3];
    let mut counters = BAD_ROW_1.to_vec();
    cells.resize(lengths[0], 0);
    counters.resize(lengths[1], 0);
    read_into(name, [2, 3, 2], &cells, &counters, lengths[2])
}

/// A bad counter and each buffer one element short and one long: 2.
fn lengths() -> Vec<Case> {
    vec![
        read_lengths("A4 read, cells short", [1, 2, 2]),
        read_lengths("A4 read, cells long", [3, 2, 2]),
        read_lengths("A4 read, counters short", [2, 1, 2]),
        read_lengths("A4 read, counters long", [2, 3, 2]),
        read_lengths("A4 read, output short", [2, 2, 1]),
        read_lengths("A4 read, output long", [2, 2, 3]),
        store_lengths("A4 store, data short", [1, 2, 2, 2, 2]),
        store_lengths("A4 store, data long", [3, 2, 2, 2, 2]),
        store_lengths("A4 store, mask short", [2, 1, 2, 2, 2]),
        store_lengths("A4 store, mask long", [2, 3, 2, 2, 2]),
        store_lengths("A4 store, values short", [2, 2, 1, 2, 2]),
        store_lengths("A4 store, values long", [2, 2, 3, 2, 2]),
        store_lengths("A4 store, counters short", [2, 2, 2, 1, 2]),
        store_lengths("A4 store, counters long", [2, 2, 2, 3, 2]),
        store_lengths("A4 store, cells short", [2, 2, 2, 2, 1]),
        store_lengths("A4 store, cells long", [2, 2, 2, 2, 3]),
    ]
}

/// Cells that misread, and plans.
fn misread_and_plans() -> Vec<Case> {
    let cells = [5, 3];
    let a_loop = stuck(2, 2, &[(0, 0), (1, 1)], &[(0, 1), (1, 0)]);
    vec![
        // 4 goes before 13, with its index.
        store("A4 store, misread, K = 2", &misread([2, 3, 2]), &BAD_ROW_1),
        // The same at K = 3: 13, and neither the counter of 3 nor the row of the cell, 1, is named.
        store("A4 store, misread, K = 3", &misread([2, 3, 3]), &BAD_ROW_1),
        // 13 with counters at K.
        store(
            "A4 store, misread, counters at K",
            &misread([2, 3, 2]),
            &AT_K_FROM_ROW_1,
        ),
        // A bad column that no stuck cell has: a read and a store judge it all the same.
        read("A4 read, idle column", [2, 3, 2], &cells, &[0x11, 0x03]),
        store("A4 store, idle column", &masked([2, 3, 2]), &[0x11, 0x03]),
        // The old counters of a plan are not judged, and its line has no index: accepted, and refused with 7.
        plan_over("A4 plan, old counters 3", &masked([2, 3, 2]), &[0xff; 2]),
        plan_over("A4 plan, 7, old counters 3", &a_loop, &[0xff]),
    ]
}

/// All the cases where no counter is named, and what is just beside.
pub fn all() -> Vec<Case> {
    [levels(), numbers(), bits(), lengths(), misread_and_plans()].concat()
}
