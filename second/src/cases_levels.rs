//! Plans, stores and reads of four to seven levels (document 02, A8): G9 with K = 8, G5 at every K, and G6's staircase
//! grown to seven levels. They tell apart K up to 3 still asked for, and levels or chains that end early.

use crate::cases_pointer::Case;
use crate::grid_case::{block, plan, read, store, stuck, Block};
use crate::levels_case::{length_at, packed_at, staircase};

/// The counters of the staircase of so many levels: rows 2, 4, ... up and then odd down, columns odd up and even down.
fn staircase_counters(levels: u8) -> Vec<u8> {
    let rows = (0..levels).map(|row| (2 * row + 2).min(2 * (levels - row) - 1));
    let columns = (0..levels).map(|column| (2 * column + 1).min(2 * (levels - column)));
    rows.chain(columns).collect()
}

/// The cells that the staircase leaves: row i has the columns up to i inverted.
fn staircase_cells(levels: usize) -> Vec<u64> {
    (0..levels).map(|row| (2 << row) - 1).collect()
}

/// The block of G1 with this K.
fn g1_at(most_levels: u64) -> Block {
    block([2, 2, most_levels], [&[1, 2], &[0, 0], &[0, 0]])
}

/// G9 with K = 8, and every K beside a limit of the range or of a width, with two bytes of counters, as K = 4 to 7 ask.
fn nine() -> Vec<Case> {
    let far = (1 << 32) + 7;
    let mut cases = Vec::new();
    for k in [0, 1, 3, 4, 5, 6, 7, 8, 9, 256 + 7, far, 1 << 63, u64::MAX] {
        let two = [0x00, 0x00];
        cases.push(plan(&format!("A8 G9, K = {k}"), &g1_at(k), 2));
        cases.push(store(&format!("A8 G9 store, K = {k}"), &g1_at(k), &two));
        let numbers = [2, 2, k];
        cases.push(read(
            &format!("A8 G9 read, K = {k}"),
            numbers,
            &[1, 2],
            &two,
        ));
    }
    // One byte is right up to K = 3, and K = 8 is refused for itself, whatever the length.
    for (k, bytes) in [(3, 1), (4, 1), (4, 3), (7, 1), (7, 3), (8, 1), (8, 0)] {
        let counters = vec![0x00; bytes];
        let with = format!("K = {k}, {bytes} bytes of counters");
        cases.push(plan(&format!("A8 G9, {with}"), &g1_at(k), bytes));
        cases.push(store(&format!("A8 G9 store, {with}"), &g1_at(k), &counters));
        let numbers = [2, 2, k];
        cases.push(read(
            &format!("A8 G9 read, {with}"),
            numbers,
            &[1, 2],
            &counters,
        ));
    }
    cases
}

/// G5 at every K from 4: its plan is refused, no counters mask it, and cells are read with any counters.
fn five() -> Vec<Case> {
    let mut cases = Vec::new();
    for k in 4..=7 {
        let g5 = stuck(2, k, &[(0, 0), (1, 1)], &[(0, 1), (1, 0)]);
        let top = k as u8;
        let of_g3 = packed_at(k, &[2, 1, 1, 2]);
        let high = packed_at(k, &[top, top - 1, top - 1, top]);
        cases.push(plan(&format!("A8 G5, K = {k}"), &g5, 2));
        cases.push(store(
            &format!("A8 G5 store, counters of G3, K = {k}"),
            &g5,
            &of_g3,
        ));
        cases.push(store(
            &format!("A8 G5 store, counters at K = {k}"),
            &g5,
            &high,
        ));
        let numbers = [2, 2, k];
        cases.push(read(
            &format!("A8 G5 read, counters of G3, K = {k}"),
            numbers,
            &[1, 2],
            &of_g3,
        ));
        cases.push(read(
            &format!("A8 G5 read, counters at K = {k}"),
            numbers,
            &[1, 2],
            &high,
        ));
    }
    cases
}

/// G6's staircase grown to two to seven levels, planned at every K: refused with 7 below its levels, and above them the
/// same counters; at K of its levels also its store and its read.
fn six() -> Vec<Case> {
    let mut cases = Vec::new();
    for levels in 2..=7 {
        for k in 1..=7 {
            let name = format!("A8 G6 of {levels} levels, K = {k}");
            let bytes = length_at(levels, levels, k);
            let grown = staircase(levels as usize, levels as usize, k);
            cases.push(plan(&name, &grown, bytes));
            if k == levels || k == 7 {
                let counters = packed_at(k, &staircase_counters(levels as u8));
                let cells = staircase_cells(levels as usize);
                cases.push(store(&format!("{name}, store"), &grown, &counters));
                cases.push(read(
                    &format!("{name}, read"),
                    grown.numbers,
                    &cells,
                    &counters,
                ));
            }
        }
    }
    cases
}

/// The bytes of the seven levels' counters at each K from 4: the first counter above K is not the greatest for 4 and 5.
fn six_foreign() -> Vec<Case> {
    let counters = packed_at(7, &staircase_counters(7));
    let cells = staircase_cells(7);
    let mut cases = Vec::new();
    for k in [4, 5, 6] {
        let grown = staircase(7, 7, k);
        cases.push(store(
            &format!("A8 G6 store, seven levels' counters, K = {k}"),
            &grown,
            &counters,
        ));
        cases.push(read(
            &format!("A8 G6 read, seven levels' counters, K = {k}"),
            [7, 7, k],
            &cells,
            &counters,
        ));
    }
    // One counter of the plan lowered or raised by one: some cell then misreads, wherever the counter stands.
    for place in [0, 2, 3, 5, 6, 7, 10, 13] {
        for lowered in [true, false] {
            let mut other = staircase_counters(7);
            if !lowered && other[place] == 7 {
                continue;
            }
            other[place] = if lowered {
                other[place] - 1
            } else {
                other[place] + 1
            };
            let change = if lowered { "lowered" } else { "raised" };
            let name = format!("A8 G6 store, seven levels, counter {place} {change}");
            cases.push(store(&name, &staircase(7, 7, 7), &packed_at(7, &other)));
        }
    }
    cases
}

/// Blocks of seven levels with room beside: G7 grown, idle lines, exchanged rows and columns, and 64 by 64.
fn beside() -> Vec<Case> {
    let fifteen = staircase(8, 8, 7);
    let mut fourteen = staircase(7, 8, 7);
    fourteen.mask[6] |= 1 << 7;
    let mut idle = staircase_counters(7);
    // Row 7 and column 7 have no stuck cell: their counters may be anything, and L is then the greatest of them.
    idle.insert(7, 6);
    idle.push(5);
    let mut turned = staircase(7, 7, 7);
    turned.mask = vec![1, 3, 6, 12, 24, 48, 96];
    let mut right_ends = staircase(7, 7, 6);
    right_ends.values = vec![2, 4, 8, 16, 32, 64, 0];
    let mut corner = staircase(7, 64, 7);
    for words in [&mut corner.mask, &mut corner.values] {
        words.rotate_right(57);
        for word in words.iter_mut() {
            *word = word.rotate_right(7);
        }
    }
    let corner_below = Block {
        numbers: [64, 64, 6],
        ..corner.clone()
    };
    vec![
        // Fifteen in a chain: one level more than there are.
        plan("A8 G7 grown, fifteen in a chain", &fifteen, 6),
        // Fourteen: the last is right, and takes no level.
        plan("A8 G7 grown, fourteen in a chain", &fourteen, 6),
        plan("A8 G6 of 7 levels in 8 by 8", &staircase(7, 8, 7), 6),
        store(
            "A8 G6 store, idle row and column",
            &staircase(7, 8, 7),
            &packed_at(7, &idle),
        ),
        // Steps go by column where the others go by row: rows and columns exchange their counters.
        plan("A8 G6 of 7 levels turned", &turned, 6),
        // Thirteen in a chain whose ends are right: six levels are enough.
        plan("A8 G8 of thirteen, K = 6", &right_ends, 6),
        // The last rows and columns of the largest block, whose counters take 48 bytes.
        plan("A8 G6 of 7 levels in 64 by 64", &corner, 48),
        plan("A8 G6 of 7 levels in 64 by 64, 47 bytes", &corner, 47),
        plan("A8 G6 of 7 levels in 64 by 64, 49 bytes", &corner, 49),
        plan("A8 G6 of 7 levels in 64 by 64, K = 6", &corner_below, 48),
    ]
}

/// A loop, for which every plan is refused with 7, beside a lower refusal.
fn several() -> Vec<Case> {
    let loop_at = |k| stuck(2, k, &[(0, 0), (1, 1)], &[(0, 1), (1, 0)]);
    let mut past = loop_at(7);
    past.data[1] = 4;
    vec![
        plan("A8 plan, 1 before 7", &loop_at(8), 2),
        plan("A8 plan, 2 before 7", &loop_at(7), 1),
        plan("A8 plan, 2 before 3 and 7", &past, 3),
        plan("A8 plan, 3 before 7", &past, 2),
    ]
}

/// All the plans of four to seven levels, and what goes with them.
pub fn all() -> Vec<Case> {
    [nine(), five(), six(), six_foreign(), beside(), several()].concat()
}
