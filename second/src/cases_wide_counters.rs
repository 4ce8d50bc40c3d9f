//! Reads and stores with counters of three bits (document 02, A8), which straddle bytes. They tell apart two bits at
//! K = 4, three at K = 3, counters padded to four bits, the highest bit first, and another index than the first's.

use crate::cases_pointer::Case;
use crate::grid_case::{block, read, read_and_store, read_into, store, store_over, Block};
use crate::levels_case::{length_at, mixed, packed, packed_at, sound, SIZES};

/// Every size with mixed counters: cells of 0 are read, so that the output shows the inversion, and data are stored.
fn sizes() -> Vec<Case> {
    let mut cases = Vec::new();
    for (place, (rows, columns)) in SIZES.into_iter().enumerate() {
        let other = [4, 5, 6][place % 3];
        for k in [other, 7] {
            let counters = packed_at(k, &mixed(k, rows, columns));
            let name = format!("{rows} by {columns}, K = {k}");
            let cells = vec![0; rows as usize];
            let numbers = [rows, columns, k];
            cases.push(read(
                &format!("A8 read, {name}"),
                numbers,
                &cells,
                &counters,
            ));
            let data = sound(rows, columns, k);
            cases.push(store(&format!("A8 store, {name}"), &data, &counters));
        }
    }
    cases
}

/// Every K with the same counters, 0 to 3, in its own width and in the other ones.
fn widths() -> Vec<Case> {
    let counters = [1, 0, 3, 2, 0, 1, 3];
    let of_one_bit = [1, 0, 1, 1, 0, 1, 0];
    let mut cases = Vec::new();
    for k in 1..=7 {
        for width in 1..=4 {
            let name = format!("A8 read, K = {k}, counters of {width} bits");
            let numbers = if width == 1 { &of_one_bit } else { &counters };
            cases.push(read(&name, [3, 4, k], &[0, 0, 0], &packed(width, numbers)));
        }
    }
    cases
}

/// A single counter of 1, 2, 4 or 7 among zeros, beside a row or column of 7: each bit of a counter that straddles.
fn single_bits() -> Vec<Case> {
    let mut cases = Vec::new();
    // Of three rows and three columns, counter 2 is bits 6 to 8 and counter 5 bits 15 to 17.
    for place in [2, 5] {
        for value in [1, 2, 3, 4, 5, 6, 7] {
            let mut counters = if place == 2 {
                [0, 0, 0, 7, 7, 7]
            } else {
                [7, 7, 7, 0, 0, 0]
            };
            counters[place] = value;
            let name = format!("A8 read, counter {place} is {value}");
            let bytes = packed_at(7, &counters);
            cases.push(read(&name, [3, 3, 7], &[0, 0, 0], &bytes));
            cases.push(store(
                &format!("A8 store, counter {place} is {value}"),
                &sound(3, 3, 7),
                &bytes,
            ));
        }
    }
    cases
}

/// Each length of counters around the right one, and those of the other widths; words one off.
fn lengths() -> Vec<Case> {
    let mut cases = Vec::new();
    for (rows, columns) in [(1, 1), (2, 3), (5, 3), (9, 7), (64, 64)] {
        for k in [3, 4, 7] {
            let right = length_at(rows, columns, k);
            let lines = (rows + columns) as usize;
            let others = [
                right - 1,
                right,
                right + 1,
                lines.div_ceil(4),
                lines.div_ceil(2),
            ];
            for (place, length) in others.into_iter().enumerate() {
                if others[..place].contains(&length) {
                    continue;
                }
                let name = format!("{rows} by {columns}, K = {k}, {length} bytes");
                let counters = vec![0; length];
                let cells = vec![1; rows as usize];
                cases.push(read(
                    &format!("A8 read, {name}"),
                    [rows, columns, k],
                    &cells,
                    &counters,
                ));
            }
        }
    }
    let block = sound(2, 3, 7);
    let counters = packed_at(7, &mixed(7, 2, 3));
    cases.push(read_into(
        "A8 read, output short",
        block.numbers,
        &block.data,
        &counters,
        1,
    ));
    cases.push(store_over("A8 store, cells short", &block, &counters, &[9]));
    cases.push(store("A8 store, counters short", &block, &counters[..1]));
    cases
}

/// Every spare bit by itself: seven after three counters, one after five, none after eight.
fn spare_bits() -> Vec<Case> {
    let mut cases = Vec::new();
    for (rows, columns, first, end) in [(1, 2, 9, 16), (2, 3, 15, 16), (1, 1, 6, 8), (4, 3, 21, 24)]
    {
        for bit in first..end {
            let k = [4, 7][bit % 2];
            let mut counters = packed_at(k, &mixed(k, rows, columns));
            counters[bit / 8] |= 1 << (bit % 8);
            let names = [
                &format!("A8 read, {rows} by {columns}, K = {k}, spare bit {bit}")[..],
                &format!("A8 store, {rows} by {columns}, K = {k}, spare bit {bit}"),
            ];
            cases.extend(read_and_store(names, &sound(rows, columns, k), &counters));
        }
    }
    // Eight counters of three bits fill three bytes: the last bit is one of a counter.
    let full = [0x00, 0x00, 0x80];
    cases.extend(read_and_store(
        ["A8 read, no spare bit", "A8 store, no spare bit"],
        &sound(5, 3, 7),
        &full,
    ));
    cases
}

/// Three rows of four with a wrong cell, (0,0), and a right one, (2,3): counts that are left in the answer are not 0.
fn faulty(most_levels: u64) -> Block {
    block([3, 4, most_levels], [&[5, 3, 9], &[1, 0, 8], &[0, 0, 8]])
}

/// Counters above K: the first is named, wherever the greatest is; at K = 7 none is above.
fn index() -> Vec<Case> {
    let all: [(u64, [u8; 7]); 16] = [
        // A 5 before a 7 in rows, in columns, and across; then after it.
        (4, [4, 5, 7, 0, 1, 2, 3]),
        (4, [4, 3, 2, 1, 5, 4, 7]),
        (4, [0, 4, 5, 7, 6, 7, 4]),
        (4, [7, 1, 5, 0, 0, 5, 0]),
        (4, [1, 0, 6, 5, 5, 7, 5]),
        // All counters are at K, and one below.
        (4, [4, 4, 4, 4, 4, 4, 4]),
        (4, [3, 3, 3, 3, 3, 3, 4]),
        (5, [5, 5, 6, 7, 5, 7, 0]),
        (5, [5, 6, 5, 5, 5, 5, 7]),
        (5, [1, 2, 3, 4, 5, 0, 6]),
        (5, [5, 5, 5, 5, 5, 5, 5]),
        (6, [6, 6, 7, 6, 6, 7, 6]),
        (6, [0, 6, 5, 4, 3, 6, 7]),
        (6, [6, 6, 6, 6, 6, 6, 6]),
        (7, [7, 7, 7, 7, 7, 7, 7]),
        (7, [5, 6, 7, 0, 7, 6, 5]),
    ];
    let mut cases = Vec::new();
    for (k, counters) in all {
        let names = [
            &format!("A8 read, K = {k}, counters {counters:?}")[..],
            &format!("A8 store, K = {k}, counters {counters:?}"),
        ];
        cases.extend(read_and_store(names, &faulty(k), &packed_at(k, &counters)));
    }
    // The last counter of the largest block, index 127, in the last of 48 bytes; and the one before the columns.
    for place in [63, 64, 127] {
        let mut counters = [4; 128];
        counters[place] = 5;
        let names = [
            &format!("A8 read, 64 by 64, counter {place}")[..],
            &format!("A8 store, 64 by 64, counter {place}"),
        ];
        cases.extend(read_and_store(
            names,
            &sound(64, 64, 4),
            &packed_at(4, &counters),
        ));
    }
    cases
}

/// Several refusals at once: one row and two columns with counters 4, 3 and 5, of which the 5 is above K = 4.
fn several() -> Vec<Case> {
    let wrong = |k| block([1, 2, k], [&[1], &[1], &[0]]);
    let past = block([1, 2, 4], [&[5], &[1], &[0]]);
    let bad = [0x5c, 0x01];
    [
        read_and_store(
            ["A8 read, 1 before 4", "A8 store, 1 before 4"],
            &wrong(8),
            &bad,
        ),
        read_and_store(
            ["A8 read, 2 before 4", "A8 store, 2 before 4"],
            &wrong(4),
            &[0x5c, 0x01, 0x00],
        ),
        read_and_store(
            ["A8 read, 2 before 3", "A8 store, 2 before 3"],
            &past,
            &[0x5c],
        ),
        read_and_store(
            ["A8 read, 3 before 4", "A8 store, 3 before 4"],
            &wrong(4),
            &[0x5c, 0x03],
        ),
        read_and_store(
            ["A8 read, past before 4", "A8 store, past before 4"],
            &past,
            &bad,
        ),
        // The wrong cell has the smaller counter 3 and reads right; at K = 5 nothing is left to refuse.
        read_and_store(["A8 read, 4 alone", "A8 store, 4 alone"], &wrong(4), &bad),
        read_and_store(["A8 read, none", "A8 store, none"], &wrong(5), &bad),
        // Counters 4, 4 and 5 leave it misread: 4 goes before 13.
        read_and_store(
            ["A8 read, 4 of two", "A8 store, 4 before 13"],
            &wrong(4),
            &[0x64, 0x01],
        ),
        read_and_store(
            ["A8 read, K = 5", "A8 store, 13 alone"],
            &wrong(5),
            &[0x64, 0x01],
        ),
    ]
    .concat()
}

/// All the reads and stores with counters of three bits.
pub fn all() -> Vec<Case> {
    [
        sizes(),
        widths(),
        single_bits(),
        lengths(),
        spare_bits(),
        index(),
        several(),
    ]
    .concat()
}
