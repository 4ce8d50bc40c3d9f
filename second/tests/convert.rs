//! Conversions of all counters of small blocks, from every K to every target: the numbers are kept in every width.

use second::answer;
use second::call::{Call, GridConvert};

/// The width of counters at K.
fn width(k: u64) -> u32 {
    match k {
        1 => 1,
        2 | 3 => 2,
        _ => 3,
    }
}

/// Digits in base 2 to the power of the width, which are the counters, as one number, and as its bytes.
fn bytes(counters: &[u64], k: u64) -> Vec<u8> {
    let base = 2u64.pow(width(k));
    let number = counters
        .iter()
        .rev()
        .fold(0, |sum, counter| base * sum + counter);
    let length = (counters.len() * width(k) as usize).div_ceil(8);
    number.to_le_bytes()[..length].to_vec()
}

/// Converts these counters, with their own junk before, and gives what is then in the output.
fn converted(numbers: [u64; 4], counters: &[u64], junk: u8) -> (u8, Option<usize>, Vec<u8>) {
    let mut call = Call::GridConvert(GridConvert {
        numbers,
        counters: bytes(counters, numbers[2]),
        output: vec![junk; bytes(counters, numbers[3].clamp(1, 7)).len()],
    });
    let outcome = answer::make(&mut call).unwrap();
    assert!(outcome.counts.is_empty());
    let Call::GridConvert(after) = call else {
        unreachable!()
    };
    (outcome.number, outcome.index, after.output)
}

/// All lists of so many counters up to K.
fn all_counters(k: u64, count: u32) -> Vec<Vec<u64>> {
    (0..(k + 1).pow(count))
        .map(|number| {
            (0..count)
                .map(|place| number / (k + 1).pow(place) % (k + 1))
                .collect()
        })
        .collect()
}

#[test]
fn every_number_is_kept() {
    for (rows, columns) in [(1, 1), (2, 1), (1, 3)] {
        for k in 1..=7 {
            for counters in all_counters(k, (rows + columns) as u32) {
                for target in 1..=7 {
                    let found = converted([rows, columns, k, target], &counters, 0xff);
                    let expected = if target < k {
                        (1, Some(0), vec![0xff; bytes(&counters, target).len()])
                    } else {
                        (0, Some(0), bytes(&counters, target))
                    };
                    assert_eq!(found, expected, "{counters:?} from {k} to {target}");
                }
            }
        }
    }
}

#[test]
fn two_conversions_are_one() {
    for counters in all_counters(2, 5) {
        let direct = converted([2, 3, 2, 7], &counters, 0x00);
        for between in 2..=7 {
            let (_, _, first) = converted([2, 3, 2, between], &counters, 0xff);
            let mut second = Call::GridConvert(GridConvert {
                numbers: [2, 3, between, 7],
                counters: first,
                output: vec![0xa5; 2],
            });
            let outcome = answer::make(&mut second).unwrap();
            let Call::GridConvert(after) = second else {
                unreachable!()
            };
            assert_eq!((outcome.number, outcome.index, after.output), direct);
        }
    }
}
