//! The cases G1 to G8 of document 01: the plan of each, then the store with its counters and the read, and what is
//! just beside.

use crate::cases_pointer::Case;
use crate::grid_case::{block, plan, plan_over, read, store, store_over, stuck};
use crate::{cases_counts, cases_edges, cases_foreign, cases_index, cases_no_index};

/// G1 and G2: no stuck cell, and one.
fn one_and_two() -> Vec<Case> {
    let square = [2, 2, 1];
    let single = [1, 1, 1];
    let g1 = block(square, [&[1, 2], &[0, 0], &[0, 0]]);
    let other_values = block(square, [&[1, 2], &[0, 0], &[3, 3]]);
    let g2 = block(single, [&[1], &[1], &[0]]);
    let right = block(single, [&[1], &[1], &[1]]);
    vec![
        plan("G1", &g1, 1),
        store("G1 store", &g1, &[0x00]),
        read("G1 read", square, &[1, 2], &[0x00]),
        plan("G1, values at sound cells", &other_values, 1),
        store("G1 store, values at sound cells", &other_values, &[0x00]),
        plan_over("G1, old counters ff", &g1, &[0xff]),
        store_over("G1 store, old cells all ones", &g1, &[0x00], &[u64::MAX; 2]),
        read("G1 read, cells past the columns", square, &[1, 6], &[0x00]),
        read("G1 read, spare bit 1", square, &[1, 2], &[0x10]),
        plan("G2", &g2, 1),
        store("G2 store", &g2, &[0x03]),
        read("G2 read", single, &[0], &[0x03]),
        plan("G2, stuck at 1", &right, 1),
        store("G2 store, stuck at 1", &right, &[0x00]),
        read("G2 read, spare bit 1", single, &[0], &[0x07]),
        read("G2 read, row counter alone", single, &[0], &[0x01]),
    ]
}

/// G3 to G5: a chain of three, and a loop.
fn three_to_five() -> Vec<Case> {
    let ends = [(0, 0), (1, 1)];
    let middle = [(0, 1)];
    let loop_at_0 = [(0, 1), (1, 0)];
    let ends_alone = stuck(2, 1, &ends, &[]);
    vec![
        plan("G3", &stuck(2, 3, &ends, &middle), 1),
        store("G3 store", &stuck(2, 3, &ends, &middle), &[0x96]),
        read("G3 read", [2, 2, 3], &[1, 3], &[0x96]),
        plan("G3 with K = 2", &stuck(2, 2, &ends, &middle), 1),
        store("G3 store with K = 2", &stuck(2, 2, &ends, &middle), &[0x96]),
        plan("G4", &stuck(2, 1, &ends, &middle), 1),
        plan("G4 without its right cell", &ends_alone, 1),
        store("G4 store without its right cell", &ends_alone, &[0x0f]),
        plan("G5, K = 1", &stuck(2, 1, &ends, &loop_at_0), 1),
        plan("G5, K = 2", &stuck(2, 2, &ends, &loop_at_0), 1),
        plan("G5, K = 3", &stuck(2, 3, &ends, &loop_at_0), 1),
    ]
}

/// G6 to G8: chains of five and of seven, and one whose ends are right.
fn six_to_eight() -> Vec<Case> {
    let five_at_1 = [(0, 0), (1, 1), (2, 2)];
    let five_at_0 = [(0, 1), (1, 2)];
    let six_at_0 = [(0, 1), (1, 2), (2, 3)];
    let seven_at_1 = [(0, 0), (1, 1), (2, 2), (3, 3)];
    let g6 = stuck(3, 3, &five_at_1, &five_at_0);
    let six = stuck(4, 3, &five_at_1, &six_at_0);
    let g8 = stuck(2, 1, &[(0, 1)], &[(0, 0), (1, 1)]);
    vec![
        plan("G6, K = 3", &g6, 2),
        store("G6 store", &g6, &[0x5e, 0x0b]),
        read("G6 read", [3, 3, 3], &[1, 3, 7], &[0x5e, 0x0b]),
        read("G6 read, spare bit 1", [3, 3, 3], &[1, 3, 7], &[0x5e, 0x1b]),
        plan("G6, K = 2", &stuck(3, 2, &five_at_1, &five_at_0), 2),
        plan("G6, K = 1", &stuck(3, 1, &five_at_1, &five_at_0), 1),
        plan("G7", &stuck(4, 3, &seven_at_1, &six_at_0), 2),
        plan("G7 without (3,3)", &six, 2),
        store("G7 store without (3,3)", &six, &[0x1e, 0x2d]),
        plan("G8", &g8, 1),
        store("G8 store", &g8, &[0x09]),
        read("G8 read", [2, 2, 1], &[2, 0], &[0x09]),
    ]
}

/// All the grid cases: document 01's in its order, the edges, stores with foreign counters, the fault counts, which
/// counter is bad, and where none is named.
pub fn all() -> Vec<Case> {
    [
        one_and_two(),
        three_to_five(),
        six_to_eight(),
        cases_edges::all(),
        cases_foreign::all(),
        cases_counts::all(),
        cases_index::all(),
        cases_no_index::all(),
    ]
    .concat()
}
