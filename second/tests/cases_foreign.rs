//! The stores with foreign counters come out as written: each line below was derived by hand from document 01 and
//! document 02, A4, A7 and A9.

mod lines;
#[path = "lines/words.rs"]
mod words;

use lines::{check, junk};
use second::cases_foreign;
use words::words;

/// Lines of accepted stores, which have index 0, whose cells are words of one hex digit each.
fn accepted(lines: &[(&'static str, &str, &str)]) -> Vec<(&'static str, String)> {
    lines
        .iter()
        .map(|(name, counts, digits)| (*name, format!("{counts} 0 {}", words(digits))))
        .collect()
}

#[test]
fn stores_with_foreign_counters_come_out_as_written() {
    let refused = |name: &'static str, number: u8, rows: usize| {
        vec![(name, format!("{number} 0 0 0 0 0 {}", junk(8 * rows)))]
    };
    let lines = [
        accepted(&[
            ("G1 store, all counters 1", "0 1 0 0 0", "21"),
            ("G1 store, first row alone", "0 1 0 0 0", "12"),
            ("G1 store, last row alone", "0 1 0 0 0", "12"),
            ("G1 store, first column alone", "0 1 0 0 0", "12"),
            ("G1 store, last column alone", "0 1 0 0 0", "12"),
            ("G1 store, one cell inverted", "0 1 0 0 0", "02"),
            ("G1 store, K = 2, row counter 2 alone", "0 2 0 0 0", "12"),
            ("G1 store, K = 2, column counter 2 alone", "0 2 0 0 0", "12"),
            ("G1 store, K = 3, row counter 3 alone", "0 3 0 0 0", "12"),
            ("G1 store, K = 3, column counter 3 alone", "0 3 0 0 0", "12"),
            ("G1 store, K = 3, row 3 and columns 1", "0 3 0 0 0", "22"),
            ("G1 store, K = 3, row 2 and columns 3", "0 3 0 0 0", "12"),
        ]),
        refused("G2 store, all counters 0", 13, 1),
        refused("G2 store, row counter alone", 13, 1),
        refused("G2 store, column counter alone", 13, 1),
        accepted(&[
            ("G2 store, stuck at 1, row counter alone", "0 1 1 0 1", "1"),
            (
                "G2 store, stuck at 1, column counter alone",
                "0 1 1 0 1",
                "1",
            ),
        ]),
        refused("G2 store, stuck at 1, both counters", 13, 1),
        refused("G3 store, all counters 0", 13, 2),
        accepted(&[
            ("G3 store, row 0 raised to 3", "0 3 3 2 1", "13"),
            ("G3 store, column 1 raised to 3", "0 3 3 2 1", "13"),
        ]),
        refused("G3 store, row 1 raised to 2", 13, 2),
        refused("G3 store, all counters 3", 13, 2),
        refused("G3 store with K = 2, row 0 raised to 3", 4, 2),
        refused("G4 store, all counters 0", 13, 2),
        refused("G4 store, all counters 1", 13, 2),
        refused("G5 store, counters of G3", 13, 2),
        refused("G6 store, all counters 0", 13, 3),
        refused("G6 store, row 1 lowered to 2", 13, 3),
        vec![(
            "G6 store, K = 2, counters of K = 3",
            format!("4 0 0 0 0 1 {}", junk(24)),
        )],
        refused("G6 store, spare bit 1", 3, 3),
        refused("G7 store, last cell alone misread", 13, 4),
        refused("G8 store, all counters 0", 13, 2),
        refused("G8 store, row 1 raised", 13, 2),
        refused("G8 store, column 0 raised", 13, 2),
    ]
    .concat();
    check(&cases_foreign::all(), &lines);
}
