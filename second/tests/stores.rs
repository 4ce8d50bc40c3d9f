//! Stores of all small blocks with all counters: 13 exactly where a stuck cell's bit, as the counters invert it, is not
//! its data bit; L is the greatest counter, none below that of the plan; wrong and right cells are counted apart.

use second::answer;
use second::call::{Call, GridPlan, GridStore};

/// So many digits of a number in this base, lowest first.
fn digits(number: usize, base: usize, count: usize) -> Vec<usize> {
    let mut rest = number;
    let mut digits = Vec::new();
    for _ in 0..count {
        digits.push(rest % base);
        rest /= base;
    }
    digits
}

/// Cells as the words of rows.
fn words(cells: &[bool], columns: usize) -> Vec<u64> {
    let mut words = Vec::new();
    for line in cells.chunks(columns) {
        let ones = line.iter().enumerate().filter(|(_, cell)| **cell);
        words.push(ones.map(|(column, _)| 1 << column).sum());
    }
    words
}

/// Counters as two bytes hold them, or one if that is enough.
fn packed(counters: &[usize], most_levels: usize) -> Vec<u8> {
    let width = [1, 2, 2, 3, 3, 3, 3][most_levels - 1];
    let mut number: usize = 0;
    for (place, counter) in counters.iter().enumerate() {
        number |= counter << (place * width);
    }
    number.to_le_bytes()[..(counters.len() * width).div_ceil(8)].to_vec()
}

/// L of the plan of an accepted store's block; no plan refuses a block that some counters up to K mask.
fn planned_levels(store: &GridStore) -> usize {
    let mut plan = Call::GridPlan(GridPlan {
        numbers: store.numbers,
        data: store.data.clone(),
        mask: store.mask.clone(),
        values: store.values.clone(),
        counters: store.counters.clone(),
    });
    let outcome = answer::make(&mut plan).unwrap();
    assert_eq!(outcome.number, 0);
    outcome.counts[0]
}

/// Makes the store of a block whose cells are by their digits sound, stuck at 0 or stuck at 1, and checks its answer.
fn check(
    rows: usize,
    columns: usize,
    cells: &[usize],
    data: &[usize],
    counters: &[usize],
    k: usize,
) {
    let stuck: Vec<bool> = cells.iter().map(|cell| *cell > 0).collect();
    let at_1: Vec<bool> = cells.iter().map(|cell| *cell == 2).collect();
    let ones: Vec<bool> = data.iter().map(|bit| *bit == 1).collect();
    let mut misread = false;
    let mut stored = Vec::new();
    for place in 0..rows * columns {
        let smaller = counters[place / columns].min(counters[rows + place % columns]);
        let to_hold = ones[place] != (smaller % 2 == 1);
        misread |= stuck[place] && at_1[place] != to_hold;
        stored.push(to_hold);
    }
    let mut call = Call::GridStore(GridStore {
        numbers: [rows as u64, columns as u64, k as u64],
        data: words(&ones, columns),
        mask: words(&stuck, columns),
        values: words(&at_1, columns),
        counters: packed(counters, k),
        cells: vec![u64::MAX; rows],
    });
    let outcome = answer::make(&mut call).unwrap();
    let Call::GridStore(after) = call else {
        unreachable!()
    };
    if misread {
        assert_eq!((outcome.number, outcome.counts), (13, vec![0; 4]));
        assert_eq!(after.cells, vec![u64::MAX; rows]);
    } else {
        let greatest = *counters.iter().max().unwrap();
        // A stuck cell has the digit 1 or 2, one more than its value.
        let wrong = (0..cells.len())
            .filter(|place| cells[*place] == 2 - data[*place])
            .count();
        let right = (0..cells.len())
            .filter(|place| cells[*place] == 1 + data[*place])
            .count();
        let counts = vec![greatest, wrong + right, wrong, right];
        assert_eq!((outcome.number, outcome.counts), (0, counts));
        assert_eq!(after.cells, words(&stored, columns));
        assert!(planned_levels(&after) <= greatest);
    }
}

#[test]
fn stores_of_small_blocks_with_all_counters() {
    for (rows, columns) in [(1, 1), (1, 2), (2, 1), (1, 3), (3, 1), (2, 2)] {
        let places = rows * columns;
        // With more counters there are too many for a large K.
        let most_k = if rows + columns < 4 { 7 } else { 3 };
        for k in 1..=most_k {
            for number in 0..(k + 1usize).pow((rows + columns) as u32) {
                let counters = digits(number, k + 1, rows + columns);
                for pattern in 0..3usize.pow(places as u32) {
                    let cells = digits(pattern, 3, places);
                    for bits in 0..1 << places {
                        let data = digits(bits, 2, places);
                        check(rows, columns, &cells, &data, &counters, k);
                    }
                }
            }
        }
    }
}
