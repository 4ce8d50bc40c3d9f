//! Conversions that are accepted (document 02, A8): every K to every target that is not smaller, at sizes of all kinds.
//! They tell apart bytes kept in place of numbers, an equal target refused, and an output of the old width.

use crate::cases_pointer::Case;
use crate::levels_case::{convert, convert_over, length_at, mixed, packed_at, SIZES};

/// Every K and every target from it on, with mixed counters of three rows and five columns.
fn pairs() -> Vec<Case> {
    let mut cases = Vec::new();
    for k in 1..=7 {
        for target in k..=7 {
            let counters = packed_at(k, &mixed(k, 3, 5));
            let length = length_at(3, 5, target);
            cases.push(convert(
                &format!("A8 convert, {k} to {target}"),
                [3, 5, k, target],
                &counters,
                length,
            ));
        }
    }
    cases
}

/// Every size from each width to the widest, and at K = 4 and 7 to itself.
fn sizes() -> Vec<Case> {
    let mut cases = Vec::new();
    for (place, (rows, columns)) in SIZES.into_iter().enumerate() {
        let few = [(1, 3), (1, 4), (2, 5)][place % 3];
        for (k, target) in [few, (3, 7), (4, 7), (7, 7)] {
            let counters = packed_at(k, &mixed(k, rows, columns));
            let length = length_at(rows, columns, target);
            let name = format!("A8 convert, {rows} by {columns}, {k} to {target}");
            cases.push(convert(
                &name,
                [rows, columns, k, target],
                &counters,
                length,
            ));
        }
    }
    cases
}

/// A single row or column alone, with each number that K allows: the place and the bits of each counter.
fn single_counters() -> Vec<Case> {
    let mut cases = Vec::new();
    for (k, target) in [(1, 2), (1, 7), (3, 4), (4, 5), (7, 7)] {
        for place in 0..6 {
            let mut counters = [0; 6];
            counters[place] = k as u8;
            let name = format!("A8 convert, {k} to {target}, counter {place} alone");
            let bytes = packed_at(k, &counters);
            cases.push(convert(
                &name,
                [2, 4, k, target],
                &bytes,
                length_at(2, 4, target),
            ));
        }
    }
    cases
}

/// Counters written out: those of G2, G3 and G6, and what the output holds before, which does not count.
fn written_out() -> Vec<Case> {
    vec![
        convert("A8 convert, G2 to 2", [1, 1, 1, 2], &[0x03], 1),
        convert("A8 convert, G2 to 4", [1, 1, 1, 4], &[0x03], 1),
        convert("A8 convert, G3 to 3", [2, 2, 3, 3], &[0x96], 1),
        convert("A8 convert, G3 to 4", [2, 2, 3, 4], &[0x96], 2),
        convert("A8 convert, G6 to 3", [3, 3, 3, 3], &[0x5e, 0x0b], 2),
        convert("A8 convert, G6 to 7", [3, 3, 3, 7], &[0x5e, 0x0b], 3),
        // The same bytes with other rows and columns: the counters are the same.
        convert(
            "A8 convert, G6's bytes, 1 by 5",
            [1, 5, 3, 7],
            &[0x5e, 0x0b],
            3,
        ),
        convert(
            "A8 convert, G6's bytes, 5 by 1",
            [5, 1, 3, 7],
            &[0x5e, 0x0b],
            3,
        ),
        // Spare bits of the output before, all ones and all zeros.
        convert_over(
            "A8 convert, old output ff",
            [1, 2, 4, 7],
            &[0x1c, 0x01],
            &[0xff, 0xff],
        ),
        convert_over(
            "A8 convert, old output 00",
            [1, 2, 4, 7],
            &[0x1c, 0x01],
            &[0x00, 0x00],
        ),
        convert_over(
            "A8 convert, old output's last bit",
            [1, 2, 4, 4],
            &[0x1c, 0x01],
            &[0x00, 0x80],
        ),
        convert_over(
            "A8 convert, old output's first spare bit",
            [1, 2, 4, 4],
            &[0x1c, 0x01],
            &[0x00, 0x02],
        ),
        // The old output is no counters: those above K in it do not count either.
        convert_over(
            "A8 convert, old output above K",
            [1, 1, 4, 5],
            &[0x0c],
            &[0x3f],
        ),
        // The lowest bit of the highest counter, and all counters at K in the longest buffers.
        convert(
            "A8 convert, 64 by 64, all 4 to 7",
            [64, 64, 4, 7],
            &packed_at(4, &[4; 128]),
            48,
        ),
        convert(
            "A8 convert, 64 by 64, all 7 to 7",
            [64, 64, 7, 7],
            &[0xff; 48],
            48,
        ),
        convert(
            "A8 convert, 64 by 64, all 1 to 7",
            [64, 64, 1, 7],
            &[0xff; 16],
            48,
        ),
        convert(
            "A8 convert, 64 by 64, all 3 to 4",
            [64, 64, 3, 4],
            &[0xff; 32],
            48,
        ),
        convert(
            "A8 convert, 64 by 64, all 1 to 3",
            [64, 64, 1, 3],
            &[0xff; 16],
            32,
        ),
    ]
}

/// All the conversions that are accepted.
pub fn all() -> Vec<Case> {
    [pairs(), sizes(), single_counters(), written_out()].concat()
}
