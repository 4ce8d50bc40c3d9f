//! Reads and stores that tell misreadings of A4 of document 02 apart, which counter is the first above K: the last bad
//! one, columns counted first, counted from 1, the index within its own list, a place in bits or bytes, or the counter
//! itself. Names are of the bad counters.

use crate::cases_pointer::Case;
use crate::grid_case::{block, read_and_store, Block, Names};

/// The sizes and K of G10, with a wrong cell, (0,0), and a right one, (1,1).
fn g10() -> Block {
    block([2, 2, 2], [&[2, 1], &[1, 2], &[1, 0]])
}

/// Three rows of five with one wrong cell, (2,2), and three right ones: a count that is left in the answer is not 0.
fn wide() -> Block {
    block(
        [3, 5, 2],
        [
            &[0x16, 0x09, 0x1f],
            &[0x03, 0x10, 0x04],
            &[0x02, 0x00, 0x00],
        ],
    )
}

/// Five rows of three with one wrong cell, (3,1), and four right ones.
fn tall() -> Block {
    block(
        [5, 3, 2],
        [&[1, 6, 3, 4, 7], &[4, 1, 0, 2, 3], &[0, 0, 5, 2, 3]],
    )
}

/// Bad rows alone.
fn rows() -> Vec<Case> {
    let first: Names = ["A4 G10 read, row 0", "A4 G10 store, row 0"];
    let middle: Names = ["A4 read, row 1 of 3", "A4 store, row 1 of 3"];
    let last: Names = ["A4 read, row 2 of 3", "A4 store, row 2 of 3"];
    let in_next_byte: Names = ["A4 read, row 4 of 5", "A4 store, row 4 of 5"];
    let two: Names = ["A4 read, rows 1 and 2", "A4 store, rows 1 and 2"];
    let apart: Names = ["A4 read, rows 0 and 4", "A4 store, rows 0 and 4"];
    [
        // Index 0, though the counter is 3 and the columns are two.
        read_and_store(first, &g10(), &[0x57]),
        // Row 0 is at K, which is not above it.
        read_and_store(middle, &wide(), &[0x1e, 0x19]),
        // The last before the columns: not counted from 1, which would be column 0.
        read_and_store(last, &wide(), &[0xb6, 0x64]),
        // The first counter of byte 1: neither bit 8 nor byte 1.
        read_and_store(in_next_byte, &tall(), &[0x86, 0x87]),
        // The lower of two neighbours, not the last.
        read_and_store(two, &wide(), &[0x7c, 0x92]),
        // The lower of two that are in different bytes.
        read_and_store(apart, &tall(), &[0x67, 0x93]),
    ]
    .concat()
}

/// Bad columns alone.
fn columns() -> Vec<Case> {
    let of_g10: Names = ["A4 G10 read, column 1", "A4 G10 store, column 1"];
    let first: Names = ["A4 read, column 0 of 3", "A4 store, column 0 of 3"];
    let last: Names = ["A4 read, column 4 of 5", "A4 store, column 4 of 5"];
    let two: Names = ["A4 read, columns 1 and 2", "A4 store, columns 1 and 2"];
    let ends: Names = ["A4 read, columns 0 and 4", "A4 store, columns 0 and 4"];
    [
        // Two rows go before it: not 1, its number among the columns.
        read_and_store(of_g10, &g10(), &[0xc0]),
        // Index 5, the number of rows: neither 0, nor 3, the number of columns.
        read_and_store(first, &tall(), &[0x89, 0x9d]),
        // Index 7, the greatest of this block.
        read_and_store(last, &wide(), &[0x98, 0xe1]),
        // The lower of two, after five rows.
        read_and_store(two, &tall(), &[0x64, 0xfa]),
        // The lower of two that are in different bytes.
        read_and_store(ends, &wide(), &[0xe4, 0xd8]),
    ]
    .concat()
}

/// Bad counters in both lists: the rows go first.
fn both_lists() -> Vec<Case> {
    let crossed: Names = ["A4 read, row 2, column 1", "A4 store, row 2, column 1"];
    let adjacent: Names = ["A4 read, row 2, column 0", "A4 store, row 2, column 0"];
    let lower: Names = ["A4 read, row 1, column 0", "A4 store, row 1, column 0"];
    let all: Names = ["A4 read, all bad", "A4 store, all bad"];
    [
        // The column has the lower number within its own list.
        read_and_store(crossed, &wide(), &[0xb1, 0x87]),
        // Neighbours in the bytes: the last row and the first column.
        read_and_store(adjacent, &wide(), &[0xf6, 0x24]),
        // The column is the first of its list, and the row is not.
        read_and_store(lower, &tall(), &[0x1e, 0x2e]),
        // Index 0: neither 7, the last, nor 8, how many there are.
        read_and_store(all, &wide(), &[0xff, 0xff]),
    ]
    .concat()
}

/// A block in which each row has its number as each byte of data that has columns, and its cells of column 0 are stuck.
fn large(rows: u64, columns: u64) -> Block {
    let inside = u64::MAX >> (64 - columns);
    Block {
        numbers: [rows, columns, 2],
        data: (0..rows)
            .map(|row| (row * 0x0101_0101_0101_0101) & inside)
            .collect(),
        mask: vec![1; rows as usize],
        values: vec![0; rows as usize],
    }
}

/// Counters of 2, four to a byte, but for these bytes at their places.
fn twos_but(length: usize, others: &[(usize, u8)]) -> Vec<u8> {
    let mut bytes = vec![0xaa; length];
    for (place, byte) in others {
        bytes[*place] = *byte;
    }
    bytes
}

/// The smallest and the largest blocks, and those whose counters end within a byte.
fn sizes() -> Vec<Case> {
    let single = block([1, 1, 2], [&[1], &[1], &[0]]);
    let of_row: Names = ["A4 read, 1 by 1, row", "A4 store, 1 by 1, row"];
    let of_column: Names = ["A4 read, 1 by 1, column", "A4 store, 1 by 1, column"];
    let row_63: Names = ["A4 read, 64 by 64, row 63", "A4 store, 64 by 64, row 63"];
    let column_0: Names = [
        "A4 read, 64 by 64, column 0",
        "A4 store, 64 by 64, column 0",
    ];
    let column_63: Names = [
        "A4 read, 64 by 64, column 63",
        "A4 store, 64 by 64, column 63",
    ];
    let one_row: Names = [
        "A4 read, 1 by 64, column 63",
        "A4 store, 1 by 64, column 63",
    ];
    let one_column: Names = ["A4 read, 64 by 1, column 0", "A4 store, 64 by 1, column 0"];
    let of_both: Names = [
        "A4 read, 64 by 1, row 63 too",
        "A4 store, 64 by 1, row 63 too",
    ];
    let within: Names = ["A4 read, 6 by 7, column 6", "A4 store, 6 by 7, column 6"];
    let square = large(64, 64);
    [
        // The least block: its row is 0.
        read_and_store(of_row, &single, &[0x07]),
        // Its column is 1.
        read_and_store(of_column, &single, &[0x0d]),
        // The last row of all, 63.
        read_and_store(row_63, &square, &twos_but(32, &[(15, 0xea)])),
        // The next counter, 64.
        read_and_store(column_0, &square, &twos_but(32, &[(16, 0xab)])),
        // The greatest index that exists, 127.
        read_and_store(column_63, &square, &twos_but(32, &[(31, 0xea)])),
        // One row, then column 63: alone in the last byte.
        read_and_store(one_row, &large(1, 64), &twos_but(17, &[(16, 0x03)])),
        // The same bytes: 64 rows, then the only column.
        read_and_store(one_column, &large(64, 1), &twos_but(17, &[(16, 0x03)])),
        // The last row before it.
        read_and_store(
            of_both,
            &large(64, 1),
            &twos_but(17, &[(15, 0xea), (16, 0x03)]),
        ),
        // The last of 13 counters, and six spare bits after it.
        read_and_store(within, &large(6, 7), &twos_but(4, &[(3, 0x03)])),
    ]
    .concat()
}

/// All the cases of which counter is bad.
pub fn all() -> Vec<Case> {
    [rows(), columns(), both_lists(), sizes()].concat()
}
