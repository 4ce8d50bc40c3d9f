//! The transfers with bad numbers, outputs of another length and refused reads come out as written, from document 02,
//! A1 and A4.

mod lines;
#[path = "lines/transfers.rs"]
mod transfers;

use lines::check;
use second::cases_transfer_order;
use transfers::{left, line};

/// Where the cases of each kind start.
const OUTPUTS: usize = 24;
const REFUSED_READS: usize = OUTPUTS + 17;
const LONG_SCRIPTS: usize = REFUSED_READS + 26;

#[test]
fn bad_numbers_are_refused_first_and_always() {
    let bad = |steps: &str| left("1 0", 2, steps);
    let lines = [
        ("A1 no rows", bad("1111111")),
        ("A1 65 rows", bad("1111111")),
        ("A1 2 rows and 2^32", bad("1111111")),
        ("A1 2^61 rows", bad("1111111")),
        ("A1 most rows", bad("1111111")),
        ("A1 no columns", bad("1111111")),
        ("A1 65 columns", bad("1111111")),
        ("A1 3 columns and 256", bad("1111111")),
        ("A1 most columns", bad("1111111")),
        ("A1 K = 0", bad("1111111")),
        ("A1 K = 8", bad("1111111")),
        ("A1 K = 3 and 2^63", bad("1111111")),
        ("A1 most K", bad("1111111")),
        ("A1 none in range", bad("1111111")),
        ("A1 no rows and nothing else", left("1 0", 0, "1")),
        ("A1 no rows, no output", left("1 0", 0, "11")),
        ("A1 65 rows, their output", left("1 0", 65, "1111")),
        ("A1 K = 8, an output of 3", left("1 0", 3, "11")),
        ("A1 K = 8, too many bytes", bad("111111")),
        ("A1 K = 8, four bits a counter", bad("11")),
        ("A1 K = 8, short", bad("11")),
        ("A1 K = 8, no script", bad("1")),
        ("A1 K = 8, too many bytes, no output", left("1 0", 0, "11")),
        ("A1 K = 8, new starts", bad("11111")),
    ];
    check(&cases_transfer_order::all()[..OUTPUTS], &lines);
}

#[test]
fn outputs_of_another_length_are_refused_before_short_blocks() {
    let lines = [
        ("A1 no output", left("2 0", 0, "00")),
        ("A1 an output of 1", left("2 0", 1, "00")),
        ("A1 an output of 2", line("0 0", "62", "00")),
        ("A1 an output of 3, a word a column", left("2 0", 3, "00")),
        ("A1 an output of 1,024", left("2 0", 1024, "00")),
        ("A1 an output of 65", left("2 0", 65, "0000")),
        ("A1 an output of 63", left("2 0", 63, "0000")),
        ("A1 short, an output of 1", left("2 0", 1, "00")),
        ("A1 short, an output of 3", left("2 0", 3, "00")),
        ("A1 nothing sent, no output", left("2 0", 0, "0")),
        ("A1 a spare bit, an output of 3", left("2 0", 3, "00")),
        ("A1 a bit past, an output of 1", left("2 0", 1, "00")),
        ("A1 a bad counter, an output of 3", left("2 0", 3, "00")),
        ("A1 an output of 3, finished again", left("2 0", 3, "00202")),
        ("A1 an output of 3, then over", left("9 0", 3, "0029")),
        ("A1 an output of 3, over, finished", left("9 0", 3, "00299")),
        (
            "A1 an output of 3, over, a new start",
            left("2 0", 3, "099020"),
        ),
    ];
    check(&cases_transfer_order::all()[OUTPUTS..REFUSED_READS], &lines);
}

#[test]
fn whole_blocks_are_refused_as_a_read_refuses_them() {
    let refused = |answer: &str, steps: &str| left(answer, 2, steps);
    let lines = [
        ("A1 the first spare bit", refused("3 0", "00")),
        ("A1 the last spare bit", refused("3 0", &"0".repeat(19))),
        ("A1 column 3 of row 0", refused("3 0", "0000")),
        ("A1 column 3 of row 1", refused("3 0", "0000")),
        ("A1 column 63 of row 0", refused("3 0", "000")),
        ("A1 column 63 of row 1", refused("3 0", "000")),
        ("A1 bad counter, row 0", refused("4 0", "000")),
        ("A1 bad counter, row 1", refused("4 1", "000")),
        ("A1 bad counter, column 0", refused("4 2", "000")),
        ("A1 bad counter, column 1", refused("4 3", "000")),
        ("A1 bad counter, column 2", refused("4 4", "000")),
        ("A1 bad counters, row 1 and column 1", refused("4 1", "000")),
        ("A1 bad counters, all", refused("4 0", "000")),
        ("A1 counters at K", line("0 0", "36", "000")),
        (
            "A1 K = 4, bad counter across two bytes",
            refused("4 2", "000"),
        ),
        (
            "A1 K = 4, the greatest is not the first",
            refused("4 1", "000"),
        ),
        ("A1 K = 4, counters at K", line("0 0", "36", "000")),
        ("A1 64 by 64, last counter bad", left("4 127", 64, "0000")),
        ("A1 64 by 64, first column's bad", left("4 64", 64, "0000")),
        ("A1 a bad counter and a spare bit", refused("3 0", "00")),
        ("A1 a bad counter and a bit past", refused("3 0", "00")),
        ("A1 a bad counter, finished again", refused("4 2", "00404")),
        ("A1 a bad counter, nothing after it", refused("8 0", "0040")),
        (
            "A1 a bad counter, a new start, a good block",
            line("0 0", "36", "00400"),
        ),
        (
            "A1 a bad counter, a new start, another",
            refused("4 4", "00400"),
        ),
        ("A1 a spare bit, finished again", refused("3 0", "0033")),
    ];
    check(
        &cases_transfer_order::all()[REFUSED_READS..LONG_SCRIPTS],
        &lines,
    );
}

#[test]
fn the_longest_scripts_come_out_as_written() {
    let zeros = "0".repeat(1025);
    let finishes = format!("0{}", "8".repeat(1024));
    let over = format!("{}{}", "0".repeat(19), "9".repeat(1006));
    let long_over = format!("{}{}", "0".repeat(561), "9".repeat(464));
    let lines = [
        ("A1 1,024 finishes", left("8 0", 2, &finishes)),
        (
            "A1 1,023 finishes of a whole block",
            line("0 0", "62", &zeros),
        ),
        ("A1 1,024 lumps of none", left("8 0", 2, &zeros)),
        ("A1 1,024 new starts", left("8 0", 2, &zeros)),
        ("A1 1,024 single bytes", left("9 0", 2, &over)),
        ("A1 1,024 of everything", left("9 0", 1024, &long_over)),
        (
            "A1 1,024 of everything, K = 8",
            left("1 0", 1024, &"1".repeat(1025)),
        ),
    ];
    check(&cases_transfer_order::all()[LONG_SCRIPTS..], &lines);
}
