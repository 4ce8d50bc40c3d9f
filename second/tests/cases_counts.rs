//! The cases of the two fault counts come out as written: each line below was derived by hand from document 01 and
//! document 02, A4, A7 and A9. After the number stand L, F, the wrong cells and the right ones, and in the line of a
//! store the index, 0.

mod lines;

use lines::{check, junk};
use second::cases_counts;

/// Words of two hex digits each, as they print.
fn words(bytes: &[u8]) -> String {
    bytes.iter().map(|byte| format!("{byte:016x}")).collect()
}

/// The words of 64 rows, each the eight bytes that are given for its number.
fn rows(bytes_of: impl Fn(u8) -> [u8; 8]) -> String {
    (0..64)
        .flat_map(bytes_of)
        .map(|byte| format!("{byte:02x}"))
        .collect()
}

/// The lines of the blocks of 64 by 64. Row i is data i in every byte.
fn full() -> Vec<(&'static str, String)> {
    let right = rows(|row| [row; 8]);
    let wrong = rows(|row| [!row; 8]);
    let last_row = rows(|row| [if row == 63 { 0xc0 } else { row }; 8]);
    let last_column = rows(|row| [row | 0x80, row, row, row, row, row, row, row]);
    vec![
        (
            "A9, 64 by 64 right",
            format!("0 0 4096 0 4096 {}", "00".repeat(32)),
        ),
        (
            "A9 store, 64 by 64 right",
            format!("0 0 4096 0 4096 0 {right}"),
        ),
        (
            "A9, 64 by 64 wrong",
            format!("0 1 4096 4096 0 {}", "ff".repeat(16)),
        ),
        (
            "A9 store, 64 by 64 wrong",
            format!("0 1 4096 4096 0 0 {wrong}"),
        ),
        (
            "A9, last row wrong",
            String::from("0 1 4096 64 4032 0000000000000080ffffffffffffffff"),
        ),
        (
            "A9 store, last row wrong",
            format!("0 1 4096 64 4032 0 {last_row}"),
        ),
        (
            "A9, last column wrong",
            format!("0 1 64 64 0 {}{}40", "55".repeat(16), "00".repeat(15)),
        ),
        (
            "A9 store, last column wrong",
            format!("0 1 64 64 0 0 {last_column}"),
        ),
    ]
}

#[test]
fn the_cases_of_the_fault_counts_come_out_as_written() {
    let single_column = [&[0, 1, 1].repeat(21)[..], &[0]].concat();
    let mut lines = vec![
        (
            "A9, 2 by 5, sound values equal",
            String::from("0 1 4 1 3 11"),
        ),
        (
            "A9 store, 2 by 5, sound values equal",
            format!("0 1 4 1 3 0 {}", words(&[0x09, 0x12])),
        ),
        (
            "A9, 2 by 5, sound values differ",
            String::from("0 1 4 1 3 11"),
        ),
        (
            "A9 store, 2 by 5, sound values differ",
            format!("0 1 4 1 3 0 {}", words(&[0x09, 0x12])),
        ),
        ("A9, 2 by 5, data inverted", String::from("0 1 4 3 1 4f")),
        (
            "A9 store, 2 by 5, data inverted",
            format!("0 1 4 3 1 0 {}", words(&[0x01, 0x1e])),
        ),
        (
            "A9 store, 2 by 5, column 0 raised",
            format!("0 1 4 1 3 0 {}", words(&[0x08, 0x12])),
        ),
        ("A9, 5 by 2", String::from("0 2 6 2 4 1224")),
        (
            "A9 store, 5 by 2",
            format!("0 2 6 2 4 0 {}", words(&[0, 2, 0, 0, 2])),
        ),
        ("A9, 5 by 2 with K = 1", String::from("7 0 0 0 0 a5")),
        (
            "A9 store, 5 by 2, row 2 lowered",
            format!("13 0 0 0 0 0 {}", junk(40)),
        ),
        (
            "A9 store, 5 by 2, row 4 raised",
            format!("13 0 0 0 0 0 {}", junk(40)),
        ),
        ("A9, wrong cells alone", String::from("0 1 3 3 0 1d")),
        (
            "A9 store, wrong cells alone",
            format!("0 1 3 3 0 0 {}", words(&[1, 1, 0])),
        ),
        ("A9, right cells alone", String::from("0 0 3 0 3 00")),
        (
            "A9 store, right cells alone",
            format!("0 0 3 0 3 0 {}", words(&[2, 1, 3])),
        ),
        (
            "A9 store, right cells inverted",
            format!("13 0 0 0 0 0 {}", junk(24)),
        ),
        ("A9, none stuck, values equal", String::from("0 0 0 0 0 00")),
        (
            "A9 store, none stuck, values equal",
            format!("0 0 0 0 0 0 {}", words(&[2, 1, 3])),
        ),
        (
            "A9, none stuck, values differ",
            String::from("0 0 0 0 0 00"),
        ),
        (
            "A9 store, none stuck, values differ",
            format!("0 0 0 0 0 0 {}", words(&[2, 1, 3])),
        ),
        (
            "A9 store, L above right",
            format!("0 3 3 3 0 0 {}", words(&[1, 1, 0])),
        ),
        (
            "A9 store, L above wrong",
            format!("0 3 3 0 3 0 {}", words(&[2, 1, 3])),
        ),
        ("A9, 4 by 6", String::from("0 1 23 12 11 f303")),
        (
            "A9 store, 4 by 6",
            format!("0 1 23 12 11 0 {}", words(&[0x15, 0x2a, 0x33, 0x0c])),
        ),
        (
            "A9, 64 by 1",
            String::from("0 1 43 22 21 499224499224499201"),
        ),
        (
            "A9 store, 64 by 1",
            format!("0 1 43 22 21 0 {}", words(&single_column)),
        ),
    ];
    lines.extend(full());
    check(&cases_counts::all(), &lines);
}
