//! The grid cases come out as written: each line below was derived by hand from document 01 and document 02, A4, A7
//! and A9. The last figure of a read and of a store is the index of the first counter above K.

mod lines;
#[path = "lines/words.rs"]
mod words;

use lines::{check, junk};
use second::{cases_counts, cases_edges, cases_foreign, cases_grid, cases_index, cases_no_index};
use words::words;

#[test]
fn the_cases_of_document_01_come_out_as_written() {
    let two = junk(16);
    let lines = [
        ("G1", String::from("0 0 0 0 0 00")),
        ("G1 store", format!("0 0 0 0 0 0 {}", words("12"))),
        ("G1 read", format!("0 0 {}", words("12"))),
        ("G1, values at sound cells", String::from("0 0 0 0 0 00")),
        (
            "G1 store, values at sound cells",
            format!("0 0 0 0 0 0 {}", words("12")),
        ),
        ("G1, old counters ff", String::from("0 0 0 0 0 00")),
        (
            "G1 store, old cells all ones",
            format!("0 0 0 0 0 0 {}", words("12")),
        ),
        ("G1 read, cells past the columns", format!("3 0 {two}")),
        ("G1 read, spare bit 1", format!("3 0 {two}")),
        ("G2", String::from("0 1 1 1 0 03")),
        ("G2 store", format!("0 1 1 1 0 0 {}", words("0"))),
        ("G2 read", format!("0 0 {}", words("1"))),
        ("G2, stuck at 1", String::from("0 0 1 0 1 00")),
        (
            "G2 store, stuck at 1",
            format!("0 0 1 0 1 0 {}", words("1")),
        ),
        ("G2 read, spare bit 1", format!("3 0 {}", junk(8))),
        ("G2 read, row counter alone", format!("0 0 {}", words("0"))),
        ("G3", String::from("0 2 3 2 1 96")),
        ("G3 store", format!("0 2 3 2 1 0 {}", words("13"))),
        ("G3 read", format!("0 0 {}", words("00"))),
        ("G3 with K = 2", String::from("0 2 3 2 1 96")),
        (
            "G3 store with K = 2",
            format!("0 2 3 2 1 0 {}", words("13")),
        ),
        ("G4", String::from("7 0 0 0 0 a5")),
        ("G4 without its right cell", String::from("0 1 2 2 0 0f")),
        (
            "G4 store without its right cell",
            format!("0 1 2 2 0 0 {}", words("33")),
        ),
        ("G5, K = 1", String::from("7 0 0 0 0 a5")),
        ("G5, K = 2", String::from("7 0 0 0 0 a5")),
        ("G5, K = 3", String::from("7 0 0 0 0 a5")),
        ("G6, K = 3", String::from("0 3 5 3 2 5e0b")),
        ("G6 store", format!("0 3 5 3 2 0 {}", words("137"))),
        ("G6 read", format!("0 0 {}", words("000"))),
        ("G6 read, spare bit 1", format!("3 0 {}", junk(24))),
        ("G6, K = 2", String::from("7 0 0 0 0 a5a5")),
        ("G6, K = 1", String::from("7 0 0 0 0 a5")),
        ("G7", String::from("7 0 0 0 0 a5a5")),
        ("G7 without (3,3)", String::from("0 3 6 3 3 1e2d")),
        (
            "G7 store without (3,3)",
            format!("0 3 6 3 3 0 {}", words("1370")),
        ),
        ("G8", String::from("0 1 3 1 2 09")),
        ("G8 store", format!("0 1 3 1 2 0 {}", words("20"))),
        ("G8 read", format!("0 0 {}", words("00"))),
    ];
    let others = [
        cases_edges::all(),
        cases_foreign::all(),
        cases_counts::all(),
        cases_index::all(),
        cases_no_index::all(),
    ]
    .concat();
    let all = cases_grid::all();
    check(&all[..all.len() - others.len()], &lines);
}

#[test]
fn the_edges_come_out_as_written() {
    let one = junk(8);
    let two = junk(16);
    let plan_refused = |number: u8| format!("{number} 0 0 0 0 a5");
    let store_refused = |number: u8| format!("{number} 0 0 0 0 0 {two}");
    let short = |digits: &str| format!("2 0 0 0 0 0 {}", words(digits));
    let lines = [
        ("G9, K = 0", plan_refused(1)),
        ("G9, K = 1", String::from("0 0 0 0 0 00")),
        ("G9, K = 3", String::from("0 0 0 0 0 00")),
        ("G9, K = 4", plan_refused(2)),
        ("G9 store, K = 0", store_refused(1)),
        ("G9 store, K = 1", format!("0 0 0 0 0 0 {}", words("12"))),
        ("G9 store, K = 3", format!("0 0 0 0 0 0 {}", words("12"))),
        ("G9 store, K = 4", store_refused(2)),
        ("G9 read, K = 0", format!("1 0 {two}")),
        ("G9 read, K = 1", format!("0 0 {}", words("12"))),
        ("G9 read, K = 3", format!("0 0 {}", words("12"))),
        ("G9 read, K = 4", format!("2 0 {two}")),
        ("G9, K = 2^32 + 1", plan_refused(1)),
        ("G9, rows 0", plan_refused(1)),
        ("G9, columns 65", plan_refused(1)),
        ("G9 store, K = 2^32 + 1", store_refused(1)),
        ("G9 store, rows 0", store_refused(1)),
        ("G9 store, columns 65", store_refused(1)),
        ("G9 store, columns 2^64 - 1", store_refused(1)),
        ("G9 read, rows 2^64 - 1", format!("1 0 {two}")),
        ("G9 read, columns 256 + 2", format!("1 0 {two}")),
        ("G10, K = 2, row counter 2", format!("0 0 {}", words("21"))),
        ("G10, K = 2, row counter 3", format!("4 0 {two}")),
        ("G10, K = 3, row counter 3", format!("0 0 {}", words("21"))),
        (
            "G10, K = 2, column counter 2",
            format!("0 0 {}", words("12")),
        ),
        ("G10, K = 2, column counter 3", format!("4 3 {two}")),
        ("G10, K = 2, counters 2", format!("0 0 {}", words("12"))),
        ("G10, K = 3, counters 3", format!("0 0 {}", words("21"))),
        (
            "G10 store, K = 2, row counter 2",
            format!("0 2 0 0 0 0 {}", words("21")),
        ),
        ("G10 store, K = 2, row counter 3", store_refused(4)),
        (
            "G10 store, K = 3, row counter 3",
            format!("0 3 0 0 0 0 {}", words("21")),
        ),
        (
            "G10 store, K = 2, column counter 2",
            format!("0 2 0 0 0 0 {}", words("12")),
        ),
        (
            "G10 store, K = 2, column counter 3",
            format!("4 0 0 0 0 3 {two}"),
        ),
        (
            "G10 store, K = 2, counters 2",
            format!("0 2 0 0 0 0 {}", words("12")),
        ),
        (
            "G10 store, K = 3, counters 3",
            format!("0 3 0 0 0 0 {}", words("21")),
        ),
        ("G1, data past the columns", plan_refused(3)),
        ("G1, mask past the columns", plan_refused(3)),
        ("G1, values past the columns", plan_refused(3)),
        ("G1 store, data past the columns", store_refused(3)),
        ("G1 store, mask past the columns", store_refused(3)),
        ("G1 store, values past the columns", store_refused(3)),
        ("G1 store, spare bit 1", store_refused(3)),
        ("G1 store, last spare bit 1", store_refused(3)),
        ("G2 store, spare bit 1", format!("3 0 0 0 0 0 {one}")),
        (
            "64 columns, last cell wrong",
            String::from("0 1 1 1 0 010000000000000001"),
        ),
        ("64 columns, store", format!("0 1 1 1 0 0 {}", words("0"))),
        ("G1, data one word short", plan_refused(2)),
        ("G1, data one word long", plan_refused(2)),
        ("G1, mask one word short", plan_refused(2)),
        ("G1, mask one word long", plan_refused(2)),
        ("G1, values one word short", plan_refused(2)),
        ("G1, values one word long", plan_refused(2)),
        ("G1, counters one byte short", String::from("2 0 0 0 0 -")),
        ("G1, counters one byte long", String::from("2 0 0 0 0 a5a5")),
        ("G1 store, data one word short", short("99")),
        ("G1 store, data one word long", short("99")),
        ("G1 store, mask one word short", short("99")),
        ("G1 store, mask one word long", short("99")),
        ("G1 store, values one word short", short("99")),
        ("G1 store, values one word long", short("99")),
        ("G1 store, counters one byte short", short("99")),
        ("G1 store, counters one byte long", short("99")),
        ("G1 store, cells one word short", short("9")),
        ("G1 store, cells one word long", short("999")),
        (
            "G1 store, no buffer has anything",
            String::from("2 0 0 0 0 0 -"),
        ),
        ("K = 4, 2 before 3", short("9")),
        ("2 before 3, 4 and 13", short("9")),
        ("3 before 4 and 13", store_refused(3)),
        ("4 before 13", store_refused(4)),
        ("13 alone", store_refused(13)),
        ("Plan, 1 before 2 and 3", String::from("1 0 0 0 0 -")),
        ("Plan, 2 before 3", String::from("2 0 0 0 0 a5a5")),
        ("Plan, 3 before 7", plan_refused(3)),
    ];
    check(&cases_edges::all(), &lines);
}
