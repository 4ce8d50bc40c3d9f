//! Plans and stores that tell misreadings of the two fault counts apart (document 02, A9): wrong and right exchanged,
//! value bits of sound cells counted, rows and columns exchanged, stuck cells judged without the data or by the cells.

use crate::cases_pointer::Case;
use crate::grid_case::{block, plan, store, Block};

/// Two rows of five with one wrong cell, (0,2), and three right ones, of which (1,0) is in a row that no level takes.
fn wide() -> Vec<Case> {
    let numbers = [2, 5, 1];
    let mask: &[u64] = &[0b10110, 0b00001];
    let data: &[u64] = &[0b01101, 0b10010];
    let inverted: &[u64] = &[0b10010, 0b01101];
    // The same bits at stuck cells; at sound ones the first are the data, and the others the inverted data.
    let values: &[u64] = &[0b01001, 0b10010];
    let other_values: &[u64] = &[0b00000, 0b01100];
    let equal = block(numbers, [data, mask, values]);
    let differing = block(numbers, [data, mask, other_values]);
    let turned = block(numbers, [inverted, mask, values]);
    vec![
        plan("A9, 2 by 5, sound values equal", &equal, 1),
        store("A9 store, 2 by 5, sound values equal", &equal, &[0x11]),
        plan("A9, 2 by 5, sound values differ", &differing, 1),
        store("A9 store, 2 by 5, sound values differ", &differing, &[0x11]),
        plan("A9, 2 by 5, data inverted", &turned, 1),
        store("A9 store, 2 by 5, data inverted", &turned, &[0x4f]),
        store("A9 store, 2 by 5, column 0 raised", &equal, &[0x15]),
    ]
}

/// Five rows of two with two wrong cells in a chain, (0,0) and (2,1), and four right ones.
fn tall() -> Vec<Case> {
    let words: [&[u64]; 3] = [&[1, 2, 3, 0, 2], &[3, 0, 2, 1, 3], &[0, 2, 1, 0, 2]];
    let two_levels = block([5, 2, 2], words);
    let one_level = block([5, 2, 1], words);
    vec![
        plan("A9, 5 by 2", &two_levels, 2),
        store("A9 store, 5 by 2", &two_levels, &[0x12, 0x24]),
        plan("A9, 5 by 2 with K = 1", &one_level, 1),
        store(
            "A9 store, 5 by 2, row 2 lowered",
            &two_levels,
            &[0x02, 0x24],
        ),
        store("A9 store, 5 by 2, row 4 raised", &two_levels, &[0x12, 0x25]),
    ]
}

/// Three rows of two in which all stuck cells are wrong, or all right, or none is stuck.
fn one_kind() -> Vec<Case> {
    let data: &[u64] = &[2, 1, 3];
    let inverted: &[u64] = &[1, 2, 0];
    let mask: &[u64] = &[3, 0, 1];
    let wrong_values: &[u64] = &[1, 1, 2];
    let right_values: &[u64] = &[2, 2, 1];
    let wrong = block([3, 2, 1], [data, mask, wrong_values]);
    let right = block([3, 2, 1], [data, mask, right_values]);
    let wrong_of_three = block([3, 2, 3], [data, mask, wrong_values]);
    let right_of_three = block([3, 2, 3], [data, mask, right_values]);
    let equal = block([3, 2, 1], [data, &[0, 0, 0], data]);
    let differing = block([3, 2, 1], [data, &[0, 0, 0], inverted]);
    vec![
        plan("A9, wrong cells alone", &wrong, 1),
        store("A9 store, wrong cells alone", &wrong, &[0x1d]),
        plan("A9, right cells alone", &right, 1),
        store("A9 store, right cells alone", &right, &[0x00]),
        store("A9 store, right cells inverted", &right, &[0x1d]),
        plan("A9, none stuck, values equal", &equal, 1),
        store("A9 store, none stuck, values equal", &equal, &[0x00]),
        plan("A9, none stuck, values differ", &differing, 1),
        store("A9 store, none stuck, values differ", &differing, &[0x00]),
        store("A9 store, L above right", &wrong_of_three, &[0x53, 0x03]),
        store("A9 store, L above wrong", &right_of_three, &[0x0c, 0x00]),
    ]
}

/// Counts of two digits: two wrong rows and two right ones, and a single column.
fn many() -> Vec<Case> {
    let data: &[u64] = &[0x2a, 0x15, 0x33, 0x0c];
    let mask: &[u64] = &[0x3f, 0x3f, 0x3f, 0x1f];
    let values: &[u64] = &[0x15, 0x2a, 0x33, 0x2c];
    let rows = block([4, 6, 1], [data, mask, values]);
    let column = Block {
        numbers: [64, 1, 1],
        data: vec![1; 64],
        // From row 0 on: wrong, right and sound in turn.
        mask: (0..64).map(|row| [1, 1, 0][row % 3]).collect(),
        values: (0..64).map(|row| [0, 1, 0][row % 3]).collect(),
    };
    let of_column = [0x49, 0x92, 0x24, 0x49, 0x92, 0x24, 0x49, 0x92, 0x01];
    vec![
        plan("A9, 4 by 6", &rows, 2),
        store("A9 store, 4 by 6", &rows, &[0xf3, 0x03]),
        plan("A9, 64 by 1", &column, 9),
        store("A9 store, 64 by 1", &column, &of_column),
    ]
}

/// A block of 64 by 64 in which each row has its number as each byte of data, every cell of these masks is stuck, and
/// those of these words are wrong.
fn large(most_levels: u64, mask: [u64; 64], wrong: [u64; 64]) -> Block {
    let data: Vec<u64> = (0..64).map(|row| row * 0x0101_0101_0101_0101).collect();
    Block {
        numbers: [64, 64, most_levels],
        mask: mask.to_vec(),
        values: (0..64).map(|row| data[row] ^ wrong[row]).collect(),
        data,
    }
}

/// Blocks of 64 by 64: all cells right, all wrong, the last row wrong and all else right, the last column wrong alone.
fn full() -> Vec<Case> {
    let all = [u64::MAX; 64];
    let last_column = [1 << 63; 64];
    let mut last_row = [0; 64];
    last_row[63] = u64::MAX;
    let right = large(3, all, [0; 64]);
    let wrong = large(1, all, all);
    let row = large(1, all, last_row);
    let column = large(3, last_column, last_column);
    let of_row = [vec![0x00; 7], vec![0x80], vec![0xff; 8]].concat();
    let of_column = [vec![0x55; 16], vec![0x00; 15], vec![0x40]].concat();
    vec![
        plan("A9, 64 by 64 right", &right, 32),
        store("A9 store, 64 by 64 right", &right, &[0x00; 32]),
        plan("A9, 64 by 64 wrong", &wrong, 16),
        store("A9 store, 64 by 64 wrong", &wrong, &[0xff; 16]),
        plan("A9, last row wrong", &row, 16),
        store("A9 store, last row wrong", &row, &of_row),
        plan("A9, last column wrong", &column, 32),
        store("A9 store, last column wrong", &column, &of_column),
    ]
}

/// All the cases of the two fault counts.
pub fn all() -> Vec<Case> {
    [wide(), tall(), one_kind(), many(), full()].concat()
}
