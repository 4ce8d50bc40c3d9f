//! The cases of A4 come out as written: each line below was derived by hand from document 01 and document 02, A4, A7
//! and A9. The last figure of a read and of a store is the index of the first counter above K.

mod lines;
#[path = "lines/words.rs"]
mod words;

use lines::{check, junk};
use second::{cases_index, cases_no_index};
use words::words;

/// The lines of a read and of a store that are both refused with this number and name this index, by their rows.
fn refused(
    names: [&'static str; 2],
    number: u8,
    index: usize,
    rows: usize,
) -> [(&'static str, String); 2] {
    let old = junk(8 * rows);
    [
        (names[0], format!("{number} {index} {old}")),
        (names[1], format!("{number} 0 0 0 0 {index} {old}")),
    ]
}

#[test]
fn the_first_bad_counter_is_named() {
    let bad = |read, store, index, rows| refused([read, store], 4, index, rows);
    let lines = [
        // Counters 3 1, 1 1.
        bad("A4 G10 read, row 0", "A4 G10 store, row 0", 0, 2),
        // Counters 2 3 1, 0 1 2 1 0.
        bad("A4 read, row 1 of 3", "A4 store, row 1 of 3", 1, 3),
        // Counters 2 1 3, 2 0 1 2 1.
        bad("A4 read, row 2 of 3", "A4 store, row 2 of 3", 2, 3),
        // Counters 2 1 0 2 3, 1 0 2.
        bad("A4 read, row 4 of 5", "A4 store, row 4 of 5", 4, 5),
        // Counters 0 3 3, 1 2 0 1 2.
        bad("A4 read, rows 1 and 2", "A4 store, rows 1 and 2", 1, 3),
        // Counters 3 1 2 1 3, 0 1 2.
        bad("A4 read, rows 0 and 4", "A4 store, rows 0 and 4", 0, 5),
        // Counters 0 0, 0 3.
        bad("A4 G10 read, column 1", "A4 G10 store, column 1", 3, 2),
        // Counters 1 2 0 2 1, 3 1 2.
        bad("A4 read, column 0 of 3", "A4 store, column 0 of 3", 5, 5),
        // Counters 0 2 1, 2 1 0 2 3.
        bad("A4 read, column 4 of 5", "A4 store, column 4 of 5", 7, 3),
        // Counters 0 1 2 1 2, 2 3 3.
        bad(
            "A4 read, columns 1 and 2",
            "A4 store, columns 1 and 2",
            6,
            5,
        ),
        // Counters 0 1 2, 3 0 2 1 3.
        bad(
            "A4 read, columns 0 and 4",
            "A4 store, columns 0 and 4",
            3,
            3,
        ),
        // Counters 1 0 3, 2 3 1 0 2.
        bad(
            "A4 read, row 2, column 1",
            "A4 store, row 2, column 1",
            2,
            3,
        ),
        // Counters 2 1 3, 3 0 1 2 0.
        bad(
            "A4 read, row 2, column 0",
            "A4 store, row 2, column 0",
            2,
            3,
        ),
        // Counters 2 3 1 0 2, 3 2 0.
        bad(
            "A4 read, row 1, column 0",
            "A4 store, row 1, column 0",
            1,
            5,
        ),
        bad("A4 read, all bad", "A4 store, all bad", 0, 3),
        bad("A4 read, 1 by 1, row", "A4 store, 1 by 1, row", 0, 1),
        bad("A4 read, 1 by 1, column", "A4 store, 1 by 1, column", 1, 1),
        bad(
            "A4 read, 64 by 64, row 63",
            "A4 store, 64 by 64, row 63",
            63,
            64,
        ),
        bad(
            "A4 read, 64 by 64, column 0",
            "A4 store, 64 by 64, column 0",
            64,
            64,
        ),
        bad(
            "A4 read, 64 by 64, column 63",
            "A4 store, 64 by 64, column 63",
            127,
            64,
        ),
        bad(
            "A4 read, 1 by 64, column 63",
            "A4 store, 1 by 64, column 63",
            64,
            1,
        ),
        bad(
            "A4 read, 64 by 1, column 0",
            "A4 store, 64 by 1, column 0",
            64,
            64,
        ),
        bad(
            "A4 read, 64 by 1, row 63 too",
            "A4 store, 64 by 1, row 63 too",
            63,
            64,
        ),
        bad(
            "A4 read, 6 by 7, column 6",
            "A4 store, 6 by 7, column 6",
            12,
            6,
        ),
    ];
    check(&cases_index::all(), &lines.concat());
}

#[test]
fn no_counter_is_named_beside_another_number() {
    let refused = |read, store, number| refused([read, store], number, 0, 2).to_vec();
    let read_short = |name, rows: usize| vec![(name, format!("2 0 {}", junk(8 * rows)))];
    let store_short = |name, digits| vec![(name, format!("2 0 0 0 0 0 {}", words(digits)))];
    let lines = [
        vec![
            ("A4 read, K = 2", format!("4 1 {}", junk(16))),
            ("A4 store, K = 2", format!("4 0 0 0 0 1 {}", junk(16))),
            // Counters 1 3, 2 0 1 invert (0,0), (0,2) and (1,2).
            ("A4 read, K = 3", format!("0 0 {}", words("07"))),
            ("A4 store, K = 3", format!("0 3 3 1 2 0 {}", words("07"))),
        ],
        // In three bits the counters are 5 5, 4 0 0.
        refused("A4 read, K = 4", "A4 store, K = 4", 4),
        refused("A4 read, K = 0", "A4 store, K = 0", 1),
        refused("A4 read, K = 1", "A4 store, K = 1", 2),
        vec![
            ("A4 read, counters at K", format!("0 0 {}", words("53"))),
            (
                "A4 store, counters at K",
                format!("0 2 3 0 3 0 {}", words("53")),
            ),
        ],
        refused("A4 read, rows 0", "A4 store, rows 0", 1),
        refused("A4 read, columns 65", "A4 store, columns 65", 1),
        refused("A4 read, first spare bit", "A4 store, first spare bit", 3),
        refused("A4 read, last spare bit", "A4 store, last spare bit", 3),
        refused("A4 read, cells past", "A4 store, data past", 3),
        vec![
            ("A4 store, mask past", format!("3 0 0 0 0 0 {}", junk(16))),
            ("A4 store, values past", format!("3 0 0 0 0 0 {}", junk(16))),
        ],
        read_short("A4 read, cells short", 2),
        read_short("A4 read, cells long", 2),
        read_short("A4 read, counters short", 2),
        read_short("A4 read, counters long", 2),
        read_short("A4 read, output short", 1),
        read_short("A4 read, output long", 3),
        store_short("A4 store, data short", "99"),
        store_short("A4 store, data long", "99"),
        store_short("A4 store, mask short", "99"),
        store_short("A4 store, mask long", "99"),
        store_short("A4 store, values short", "99"),
        store_short("A4 store, values long", "99"),
        store_short("A4 store, counters short", "99"),
        store_short("A4 store, counters long", "99"),
        store_short("A4 store, cells short", "9"),
        store_short("A4 store, cells long", "999"),
        vec![
            (
                "A4 store, misread, K = 2",
                format!("4 0 0 0 0 1 {}", junk(16)),
            ),
            (
                "A4 store, misread, K = 3",
                format!("13 0 0 0 0 0 {}", junk(16)),
            ),
            (
                "A4 store, misread, counters at K",
                format!("13 0 0 0 0 0 {}", junk(16)),
            ),
            // Counters 1 0, 1 0 3.
            ("A4 read, idle column", format!("4 4 {}", junk(16))),
            ("A4 store, idle column", format!("4 0 0 0 0 4 {}", junk(16))),
            // Level 1 takes row 0 and column 0.
            ("A4 plan, old counters 3", String::from("0 1 3 1 2 1100")),
            ("A4 plan, 7, old counters 3", String::from("7 0 0 0 0 ff")),
        ],
    ];
    check(&cases_no_index::all(), &lines.concat());
}
