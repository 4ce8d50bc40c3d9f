//! Which counter is the first above K, of document 02, A4: reads and stores of the same counters, at K = 2 four to a byte.

use bench::answers::{Figures, GridAnswer, GridReadAnswer};
use bench::contestant::Contestant;
use bench::input::Input;
use second::call::{GridPlan, GridRead, GridStore};

use crate::blocks::{accepted, answers_unaltered, refuses, stores, READ};

/// A read of zeros with these numbers and counters.
fn read([rows, columns, k]: [u64; 3], counters: &[u8]) -> GridRead {
    GridRead {
        numbers: [rows, columns, k],
        cells: vec![0; rows as usize],
        counters: counters.to_vec(),
        output: vec![u64::MAX; rows as usize],
    }
}

/// A store of zeros with these numbers and counters; column 0 is stuck, so that a count left in a refusal is not 0.
fn store([rows, columns, k]: [u64; 3], counters: &[u8]) -> GridStore {
    GridStore {
        numbers: [rows, columns, k],
        data: vec![0; rows as usize],
        mask: vec![1; rows as usize],
        values: vec![0; rows as usize],
        counters: counters.to_vec(),
        cells: vec![u64::MAX; rows as usize],
    }
}

/// Has read and store refused with 4 and this index.
pub fn names<C: Contestant>(numbers: [u64; 3], counters: &[u8], index: usize) {
    let of_read = GridReadAnswer { number: 4, index };
    let of_store = GridAnswer {
        index,
        ..GridAnswer::refused(4)
    };
    answers_unaltered::<C, _>(&read(numbers, counters), of_read);
    answers_unaltered::<C, _>(&store(numbers, counters), of_store);
}

/// Has read and store refused with another number, and index 0.
pub fn names_none<C: Contestant>(numbers: [u64; 3], counters: &[u8], number: usize) {
    refuses::<C, _>(&read(numbers, counters), number);
    refuses::<C, _>(&store(numbers, counters), number);
}

/// One bad counter: in a square block, then with more columns than rows, and with more rows than columns.
pub fn places<C: Contestant>() {
    let square = [2, 2, 2];
    names::<C>(square, &[0x57], 0);
    names::<C>(square, &[0x0c], 1);
    names::<C>(square, &[0x30], 2);
    names::<C>(square, &[0xc0], 3);
    let wide = [3, 5, 2];
    names::<C>(wide, &[0x03, 0x00], 0);
    names::<C>(wide, &[0x30, 0x00], 2);
    names::<C>(wide, &[0xc0, 0x00], 3); // column 0
    names::<C>(wide, &[0x00, 0xc0], 7);
    // The others are at K, which is not above it.
    names::<C>(wide, &[0xba, 0xaa], 2);
    names::<C>(wide, &[0xaa, 0xea], 7);
    let tall = [5, 3, 2];
    names::<C>(tall, &[0xc0, 0x00], 3);
    names::<C>(tall, &[0x00, 0x03], 4);
    names::<C>(tall, &[0x00, 0x0c], 5); // column 0
    names::<C>(tall, &[0x00, 0xc0], 7);
    names::<C>([1, 1, 2], &[0x03], 0);
    names::<C>([1, 1, 2], &[0x0c], 1);
}

/// Several bad counters: of rows, of columns, and of both, where the rows go first.
pub fn several<C: Contestant>() {
    let wide = [3, 5, 2];
    names::<C>(wide, &[0x3c, 0x00], 1);
    names::<C>(wide, &[0x33, 0x00], 0);
    names::<C>(wide, &[0xc0, 0xc0], 3);
    names::<C>(wide, &[0x00, 0xcc], 5);
    names::<C>(wide, &[0xf0, 0x00], 2); // row 2 and column 0
    names::<C>(wide, &[0x0c, 0x03], 1); // row 1 and column 1
    names::<C>(wide, &[0x30, 0xc0], 2);
    names::<C>(wide, &[0xff, 0xff], 0);
    let tall = [5, 3, 2];
    names::<C>(tall, &[0x00, 0x0f], 4); // row 4 and column 0
    names::<C>(tall, &[0x00, 0xcc], 5);
}

/// Blocks of up to 64 by 64, whose counters take four words: both sides of each edge of a word.
pub fn words<C: Contestant>() {
    let only = |length: usize, place: usize, byte: u8| {
        let mut counters = vec![0; length];
        counters[place] = byte;
        counters
    };
    let whole = [64, 64, 2];
    for (place, byte, index) in [
        (0, 0x03, 0),
        (7, 0xc0, 31),
        (8, 0x03, 32),
        (15, 0xc0, 63), // row 63
        (16, 0x03, 64), // column 0
        (23, 0xc0, 95),
        (24, 0x03, 96),
        (31, 0xc0, 127), // column 63
    ] {
        names::<C>(whole, &only(32, place, byte), index);
        // The last column may be bad as well.
        let mut both = only(32, place, byte);
        both[31] |= 0xc0;
        names::<C>(whole, &both, index);
    }
    names::<C>([1, 64, 2], &only(17, 16, 0x03), 64); // column 63
    names::<C>([64, 1, 2], &only(17, 16, 0x03), 64); // column 0
    names::<C>([32, 33, 2], &only(17, 8, 0x03), 32); // column 0
    names::<C>([33, 32, 2], &only(17, 8, 0x0c), 33); // column 0
}

/// Index 0 in every answer but refusal 4, whatever the counters hold: row 1 would be named.
pub fn none<C: Contestant>() {
    let (numbers, bad) = ([2, 3, 2], [0x0c, 0x00]);
    names::<C>(numbers, &bad, 1);
    for outside in [
        [0, 3, 2],
        [65, 3, 2],
        [2, 0, 2],
        [2, 65, 2],
        [2, 3, 0],
        [2, 3, 8],
    ] {
        names_none::<C>(outside, &bad, 1);
    }
    names_none::<C>(numbers, &[0x0c], 2);
    names_none::<C>(numbers, &[0x0c, 0x00, 0x00], 2);
    names_none::<C>(numbers, &[0x0c, 0x80], 3);
    let mut past = (read(numbers, &bad), store(numbers, &bad));
    (past.0.cells[1], past.1.values[1]) = (8, 8);
    refuses::<C, _>(&past.0, 3);
    refuses::<C, _>(&past.1, 3);
    // Column 0 inverts row 1, so that its stuck cell would read as 1: 4 goes before 13, which names no counter.
    names::<C>(numbers, &[0x1c, 0x00], 1);
    refuses::<C, _>(&store([2, 3, 3], &[0x1c, 0x00]), 13);
    refuses::<C, _>(&store(numbers, &[0x18, 0x00]), 13);
    // Nothing is above K: accepted by the store and by the read of what it leaves.
    stores::<C>(&store([2, 3, 3], &bad), [3, 0, 2], &[0, 0]);
    stores::<C>(&store(numbers, &[0x08, 0x00]), [2, 0, 2], &[0, 0]);
    stores::<C>(&store([2, 3, 1], &[0x03]), [1, 0, 2], &[0, 0]);
    assert_eq!(read([2, 3, 3], &[0xff, 0x03]).made_by::<C>(), READ);
    // The old counters of a plan are not judged.
    let mut plan = GridPlan {
        numbers,
        data: vec![0; 2],
        mask: vec![1; 2],
        values: vec![0; 2],
        counters: vec![0xff; 2],
    };
    assert_eq!(plan.made_by::<C>(), accepted([0, 0, 2]));
    assert_eq!(plan.counters, [0, 0]);
}
