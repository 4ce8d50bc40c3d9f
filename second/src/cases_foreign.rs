//! Stores with foreign counters (document 02, A7): accepted wherever every stuck cell reads as its data bit, and
//! refused with 13 otherwise.

use crate::cases_pointer::Case;
use crate::grid_case::{block, store, stuck};

/// The blocks of G1 and G2: the greatest counter is L, though often no cell is inverted by it.
fn one_and_two() -> Vec<Case> {
    let g1: [&[u64]; 3] = [&[1, 2], &[0, 0], &[0, 0]];
    let narrow = block([2, 2, 1], g1);
    let wide = block([2, 2, 2], g1);
    let widest = block([2, 2, 3], g1);
    let g2 = block([1, 1, 1], [&[1], &[1], &[0]]);
    let right = block([1, 1, 1], [&[1], &[1], &[1]]);
    vec![
        store("G1 store, all counters 1", &narrow, &[0x0f]),
        store("G1 store, first row alone", &narrow, &[0x01]),
        store("G1 store, last row alone", &narrow, &[0x02]),
        store("G1 store, first column alone", &narrow, &[0x04]),
        store("G1 store, last column alone", &narrow, &[0x08]),
        store("G1 store, one cell inverted", &narrow, &[0x05]),
        store("G1 store, K = 2, row counter 2 alone", &wide, &[0x02]),
        store("G1 store, K = 2, column counter 2 alone", &wide, &[0x80]),
        store("G1 store, K = 3, row counter 3 alone", &widest, &[0x03]),
        store("G1 store, K = 3, column counter 3 alone", &widest, &[0xc0]),
        store("G1 store, K = 3, row 3 and columns 1", &widest, &[0x53]),
        store("G1 store, K = 3, row 2 and columns 3", &widest, &[0xf2]),
        store("G2 store, all counters 0", &g2, &[0x00]),
        store("G2 store, row counter alone", &g2, &[0x01]),
        store("G2 store, column counter alone", &g2, &[0x02]),
        store("G2 store, stuck at 1, row counter alone", &right, &[0x01]),
        store(
            "G2 store, stuck at 1, column counter alone",
            &right,
            &[0x02],
        ),
        store("G2 store, stuck at 1, both counters", &right, &[0x03]),
    ]
}

/// The blocks of G3 to G5: counters of the plan raised where that changes nothing, and where it does.
fn three_to_five() -> Vec<Case> {
    let ends = [(0, 0), (1, 1)];
    let g3 = stuck(2, 3, &ends, &[(0, 1)]);
    let narrower = stuck(2, 2, &ends, &[(0, 1)]);
    let g4 = stuck(2, 1, &ends, &[(0, 1)]);
    let g5 = stuck(2, 3, &ends, &[(0, 1), (1, 0)]);
    vec![
        store("G3 store, all counters 0", &g3, &[0x00]),
        store("G3 store, row 0 raised to 3", &g3, &[0x97]),
        store("G3 store, column 1 raised to 3", &g3, &[0xd6]),
        store("G3 store, row 1 raised to 2", &g3, &[0x9a]),
        store("G3 store, all counters 3", &g3, &[0xff]),
        store("G3 store with K = 2, row 0 raised to 3", &narrower, &[0x97]),
        store("G4 store, all counters 0", &g4, &[0x00]),
        store("G4 store, all counters 1", &g4, &[0x0f]),
        store("G5 store, counters of G3", &g5, &[0x96]),
    ]
}

/// The blocks of G6 to G8: one stuck cell too many, one counter too few.
fn six_to_eight() -> Vec<Case> {
    let five_at_1 = [(0, 0), (1, 1), (2, 2)];
    let five_at_0 = [(0, 1), (1, 2)];
    let six_at_0 = [(0, 1), (1, 2), (2, 3)];
    let seven_at_1 = [(0, 0), (1, 1), (2, 2), (3, 3)];
    let g6 = stuck(3, 3, &five_at_1, &five_at_0);
    let g6_narrower = stuck(3, 2, &five_at_1, &five_at_0);
    let g7 = stuck(4, 3, &seven_at_1, &six_at_0);
    let g8 = stuck(2, 1, &[(0, 1)], &[(0, 0), (1, 1)]);
    vec![
        store("G6 store, all counters 0", &g6, &[0x00, 0x00]),
        store("G6 store, row 1 lowered to 2", &g6, &[0x5a, 0x0b]),
        store(
            "G6 store, K = 2, counters of K = 3",
            &g6_narrower,
            &[0x5e, 0x0b],
        ),
        store("G6 store, spare bit 1", &g6, &[0x5e, 0x1b]),
        store("G7 store, last cell alone misread", &g7, &[0x1e, 0x2d]),
        store("G8 store, all counters 0", &g8, &[0x00]),
        store("G8 store, row 1 raised", &g8, &[0x0b]),
        store("G8 store, column 0 raised", &g8, &[0x0d]),
    ]
}

/// All the stores with foreign counters.
pub fn all() -> Vec<Case> {
    [one_and_two(), three_to_five(), six_to_eight()].concat()
}
