//! Conversions that are refused (document 02, A8), and what is just beside. They tell apart a smaller target accepted,
//! lengths of the other width, counters judged against the target, and another index than the first's.

use crate::cases_convert_order;
use crate::cases_pointer::Case;
use crate::levels_case::{convert, convert_over, length_at, mixed, packed_at};

/// Every target that is smaller than K, with the right lengths and counters that the target allows; then the edges of
/// each number.
fn numbers() -> Vec<Case> {
    let mut cases = Vec::new();
    for k in 2..=7 {
        for target in 1..k {
            let counters = packed_at(k, &mixed(1, 3, 5));
            let length = length_at(3, 5, target);
            cases.push(convert(
                &format!("A8 convert, {k} to {target}"),
                [3, 5, k, target],
                &counters,
                length,
            ));
        }
    }
    let far = 1 << 32;
    let outside = [0, 8, 9, 256 + 7, far + 7, 1 << 63, u64::MAX];
    for number in outside {
        cases.push(convert(
            &format!("A8 convert, K = {number}"),
            [2, 2, number, 7],
            &[0, 0],
            2,
        ));
        cases.push(convert(
            &format!("A8 convert, target {number}"),
            [2, 2, 4, number],
            &[0, 0],
            2,
        ));
        cases.push(convert(
            &format!("A8 convert, K and target {number}"),
            [2, 2, number, number],
            &[0, 0],
            2,
        ));
    }
    for number in [0, 65, 256 + 2, far + 2, u64::MAX - 1, u64::MAX] {
        cases.push(convert(
            &format!("A8 convert, rows {number}"),
            [number, 2, 4, 7],
            &[0, 0],
            2,
        ));
        cases.push(convert(
            &format!("A8 convert, columns {number}"),
            [2, number, 4, 7],
            &[0, 0],
            2,
        ));
    }
    // The lengths that 65 lines would ask for.
    cases.push(convert(
        "A8 convert, 65 by 63",
        [65, 63, 4, 7],
        &[0; 48],
        48,
    ));
    cases.push(convert("A8 convert, 1 by 65", [1, 65, 4, 7], &[0; 25], 25));
    cases.push(convert(
        "A8 convert, no rows, one byte",
        [0, 2, 4, 7],
        &[0],
        1,
    ));
    cases
}

/// Each buffer one byte off, and each with the length of the other's width.
fn lengths() -> Vec<Case> {
    let mut cases = Vec::new();
    for (k, target) in [(1, 2), (1, 7), (3, 3), (3, 4), (4, 7), (7, 7)] {
        for (rows, columns) in [(3, 5), (64, 64)] {
            let [old, new] = [k, target].map(|levels| length_at(rows, columns, levels));
            let all = [
                (old, new),
                (old - 1, new),
                (old + 1, new),
                (old, new - 1),
                (old, new + 1),
                (old, old),
                (new, new),
                (new, old),
                (0, new),
                (old, 0),
                (0, 0),
            ];
            for (place, (before, after)) in all.into_iter().enumerate() {
                if all[..place].contains(&(before, after)) {
                    continue;
                }
                let mut counters = packed_at(k, &mixed(k, rows, columns));
                counters.resize(before, 0);
                let name = format!(
                    "A8 convert, {rows} by {columns}, {k} to {target}, {before} and {after} bytes"
                );
                cases.push(convert(&name, [rows, columns, k, target], &counters, after));
            }
        }
    }
    cases
}

/// Buffers of 513 and of 1,024 bytes, and rows that would ask for 1,024.
fn long() -> Vec<Case> {
    let bytes = packed_at(4, &mixed(4, 3, 5));
    let lengthened = |length: usize| -> Vec<u8> {
        let further = (bytes.len()..length).map(|place| (7 * place + place / 256) as u8);
        bytes.iter().copied().chain(further).collect()
    };
    vec![
        convert(
            "A8 convert, counters 513",
            [3, 5, 4, 7],
            &lengthened(513),
            3,
        ),
        convert_over(
            "A8 convert, output 1,024",
            [3, 5, 4, 7],
            &bytes,
            &lengthened(1024),
        ),
        convert_over(
            "A8 convert, both 1,024",
            [3, 5, 4, 7],
            &lengthened(1024),
            &lengthened(1024),
        ),
        convert_over(
            "A8 convert, rows 2,728",
            [2728, 2, 4, 7],
            &[0; 1024],
            &lengthened(1024),
        ),
    ]
}

/// Every spare bit of the counters by itself, at each width; a spare bit of K's width may be none of the target's.
fn spare_bits() -> Vec<Case> {
    let mut cases = Vec::new();
    for (k, target, first, end) in [
        (1, 7, 3, 8),
        (3, 4, 6, 8),
        (4, 4, 9, 16),
        (7, 7, 15, 16),
        (5, 7, 9, 16),
    ] {
        let columns = if first == 15 { 4 } else { 2 };
        for bit in first..end {
            let mut counters = packed_at(k, &mixed(k, 1, columns));
            counters[bit / 8] |= 1 << (bit % 8);
            let name = format!("A8 convert, 1 by {columns}, {k} to {target}, spare bit {bit}");
            cases.push(convert(
                &name,
                [1, columns, k, target],
                &counters,
                length_at(1, columns, target),
            ));
        }
    }
    cases
}

/// Counters above K, of which the first is named; the target often allows them, which does not count.
fn counters_above() -> Vec<Case> {
    let all: [(u64, u64, [u8; 7]); 22] = [
        // K = 2 has the one bad counter 3; three rows stand before four columns.
        (2, 2, [3, 0, 1, 2, 0, 1, 2]),
        (2, 3, [0, 2, 3, 2, 1, 3, 2]),
        (2, 4, [2, 1, 0, 3, 1, 2, 3]),
        (2, 7, [2, 2, 2, 2, 2, 2, 3]),
        (2, 7, [2, 2, 2, 2, 2, 2, 2]),
        // A 5 before a 7 in rows, in columns, and across; then after it.
        (4, 4, [4, 5, 7, 0, 1, 2, 3]),
        (4, 7, [4, 5, 7, 0, 1, 2, 3]),
        (4, 5, [4, 3, 2, 1, 5, 4, 7]),
        (4, 6, [0, 4, 5, 7, 6, 7, 4]),
        (4, 7, [0, 1, 6, 7, 6, 7, 4]),
        (4, 7, [7, 1, 5, 0, 0, 5, 0]),
        // Above K, and not above the target.
        (4, 5, [0, 4, 4, 3, 5, 0, 1]),
        (4, 7, [0, 4, 4, 3, 4, 0, 7]),
        (4, 7, [4, 4, 4, 4, 4, 4, 4]),
        (5, 5, [5, 5, 6, 7, 5, 7, 0]),
        (5, 6, [5, 6, 5, 5, 5, 5, 7]),
        (5, 7, [1, 2, 3, 4, 5, 0, 6]),
        (5, 7, [5, 0, 5, 1, 5, 2, 5]),
        (6, 6, [6, 6, 7, 6, 6, 7, 6]),
        (6, 7, [0, 6, 5, 4, 3, 6, 7]),
        (6, 7, [6, 5, 6, 4, 6, 3, 6]),
        // Nothing is above 7.
        (7, 7, [7, 7, 5, 6, 7, 0, 7]),
    ];
    let mut cases = Vec::new();
    for (k, target, counters) in all {
        let name = format!("A8 convert, {k} to {target}, counters {counters:?}");
        let bytes = packed_at(k, &counters);
        cases.push(convert(
            &name,
            [3, 4, k, target],
            &bytes,
            length_at(3, 4, target),
        ));
    }
    // The last row, the first column and the last counter of the largest block.
    for place in [63, 64, 127] {
        let mut counters = [5; 128];
        counters[place] = 6;
        let name = format!("A8 convert, 64 by 64, counter {place}");
        cases.push(convert(&name, [64, 64, 5, 7], &packed_at(5, &counters), 48));
    }
    cases
}

/// All the conversions that are refused, and what is just beside.
pub fn all() -> Vec<Case> {
    [
        numbers(),
        lengths(),
        long(),
        spare_bits(),
        counters_above(),
        cases_convert_order::all(),
    ]
    .concat()
}
