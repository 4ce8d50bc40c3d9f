//! Which counter is the first above K, of document 02, A4, where counters have three bits and straddle bytes, A8.

use bench::contestant::Contestant;

use crate::index::{names, names_none};

/// Counters of three bits each, the lowest bit first.
fn packed(counters: &[u8]) -> Vec<u8> {
    let mut bytes = vec![0; (3 * counters.len()).div_ceil(8)];
    for bit in 0..3 * counters.len() {
        bytes[bit / 8] |= (counters[bit / 3] >> (bit % 3) & 1) << (bit % 8);
    }
    bytes
}

/// One bad counter, of every value above K: the others are at K, which is not above it.
pub fn places<C: Contestant>() {
    for k in 4..=6 {
        for value in k + 1..=7 {
            for (rows, columns) in [(1, 1), (2, 2), (3, 5), (5, 3), (1, 7), (9, 2)] {
                for place in 0..rows + columns {
                    let mut counters = vec![k; rows + columns];
                    counters[place] = value;
                    let numbers = [rows as u64, columns as u64, u64::from(k)];
                    names::<C>(numbers, &packed(&counters), place);
                }
            }
        }
    }
    // Written out: row 2 is bits 6 to 8, and column 0 bits 9 to 11.
    names::<C>([3, 1, 4], &[0x40, 0x01], 2);
    names::<C>([3, 1, 4], &[0x80, 0x01], 2);
    names::<C>([3, 1, 4], &[0x00, 0x0a], 3);
    names::<C>([3, 1, 6], &[0xc0, 0x01], 2);
    names_none::<C>([3, 1, 4], &[0x40, 0x11], 3);
}

/// Several bad counters: the first is named, also where a later one is greater.
pub fn several<C: Contestant>() {
    let wide = |k, counters: [u8; 7], index| names::<C>([3, 4, k], &packed(&counters), index);
    wide(4, [4, 5, 7, 0, 1, 2, 3], 1);
    wide(4, [4, 3, 2, 1, 5, 4, 7], 4);
    wide(4, [0, 1, 6, 7, 6, 7, 4], 2);
    wide(4, [7, 1, 5, 0, 0, 5, 0], 0);
    wide(4, [4, 4, 5, 7, 4, 4, 4], 2); // row 2 and column 0
    wide(5, [5, 5, 6, 7, 5, 7, 0], 2);
    wide(5, [5, 6, 5, 5, 5, 5, 7], 1);
    wide(6, [6, 6, 7, 6, 6, 7, 6], 2);
    wide(6, [0, 6, 5, 4, 3, 6, 7], 6);
}

/// Blocks of up to 64 by 64, whose counters take six words: both sides of each edge of a word.
pub fn words<C: Contestant>() {
    for place in [
        0, 20, 21, 22, 41, 42, 43, 62, 63, 64, 84, 85, 86, 106, 107, 126, 127,
    ] {
        for k in 4..=6 {
            let mut counters = [k; 128];
            counters[127] = 7;
            counters[place] = k + 1;
            names::<C>([64, 64, u64::from(k)], &packed(&counters), place);
        }
    }
    for (rows, columns) in [
        (1, 64),
        (64, 1),
        (21, 1),
        (22, 43),
        (10, 11),
        (32, 32),
        (33, 32),
    ] {
        let mut counters = vec![0; rows + columns];
        counters[rows + columns - 1] = 7;
        let numbers = [rows as u64, columns as u64, 5];
        names::<C>(numbers, &packed(&counters), rows + columns - 1);
        counters[rows - 1] = 6;
        names::<C>(numbers, &packed(&counters), rows - 1);
    }
}

/// Index 0 in every other answer: row 1 would be named at K = 4.
pub fn none<C: Contestant>() {
    let bad = packed(&[4, 5, 0, 7, 0]);
    names::<C>([2, 3, 4], &bad, 1);
    for outside in [
        [0, 3, 4],
        [65, 3, 4],
        [2, 0, 4],
        [2, 65, 4],
        [2, 3, 0],
        [2, 3, 8],
    ] {
        names_none::<C>(outside, &bad, 1);
    }
    // One byte too few and one too many, then a spare bit.
    names_none::<C>([2, 3, 4], &bad[..1], 2);
    names_none::<C>([2, 3, 4], &[bad[0], bad[1], 0], 2);
    names_none::<C>([2, 3, 4], &[bad[0], bad[1] | 0x80], 3);
}
