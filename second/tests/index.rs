//! Reads, stores and conversions of small blocks with all counters, those above K too: the index is that of the first
//! counter above K.

use second::answer;
use second::call::{Call, GridConvert, GridRead, GridStore};

/// The read, the store and the conversion to K itself of a block with these counters, as the bytes have them.
fn calls_with(numbers: [u64; 3], packed: u64, bytes: usize) -> [Call; 3] {
    let counters = packed.to_le_bytes()[..bytes].to_vec();
    let [rows, columns, k] = numbers;
    let words = rows as usize;
    let read = GridRead {
        numbers,
        cells: vec![1; words],
        counters: counters.clone(),
        output: vec![9; words],
    };
    let store = GridStore {
        numbers,
        data: vec![1; words],
        mask: vec![0; words],
        values: vec![1; words],
        counters: counters.clone(),
        cells: vec![9; words],
    };
    let conversion = GridConvert {
        numbers: [rows, columns, k, k],
        output: vec![9; bytes],
        counters,
    };
    [
        Call::GridRead(read),
        Call::GridStore(store),
        Call::GridConvert(conversion),
    ]
}

/// Makes the calls of a block with all counters of the width of K and compares what they name.
fn check_all(rows: u64, columns: u64, k: u64) {
    let lines = (rows + columns) as usize;
    // In base 4 or 8 a number has its counters as digits, the lowest first.
    let (base, width) = if k < 4 { (4u64, 2) } else { (8, 3) };
    for packed in 0..base.pow(lines as u32) {
        let mut first = None;
        for place in (0..lines).rev() {
            if packed / base.pow(place as u32) % base > k {
                first = Some(place);
            }
        }
        let number = if first.is_some() { 4 } else { 0 };
        for mut call in calls_with([rows, columns, k], packed, (width * lines).div_ceil(8)) {
            let outcome = answer::make(&mut call).unwrap();
            let answered = (outcome.number, outcome.index);
            assert_eq!(answered, (number, Some(first.unwrap_or(0))), "{packed:x}");
        }
    }
}

#[test]
fn the_first_counter_above_k_of_small_blocks_is_named() {
    for (rows, columns) in [(1, 1), (1, 2), (2, 1), (1, 4), (4, 1), (2, 3), (3, 2)] {
        for k in 2..=7 {
            check_all(rows, columns, k);
        }
    }
    check_all(3, 3, 2);
}
