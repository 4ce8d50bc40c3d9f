//! The transfers of sound blocks come out as written, from document 02, A1: outputs and steps are a digit each.

use std::collections::BTreeSet;

mod lines;
#[path = "lines/transfers.rs"]
mod transfers;

use lines::check;
use second::cases_pointer::Case;
use second::cases_transfer;
use transfers::{left, line, line_of};

/// Where the cases of each kind start.
const LUMPS: usize = 19;
const DOCUMENT_01: usize = LUMPS + 12;
const WIDTHS: usize = DOCUMENT_01 + 12;
const MIXED: usize = WIDTHS + 21;
const SIZES: usize = MIXED + 7;

/// Checks cases whose names are worked out.
fn check_named(cases: &[Case], lines: Vec<(String, String)>) {
    let borrowed: Vec<(&str, String)> = lines
        .iter()
        .map(|(name, line)| (name.as_str(), line.clone()))
        .collect();
    check(cases, &borrowed);
}

#[test]
fn the_cases_have_different_names() {
    let cases = cases_transfer::all();
    let names: BTreeSet<&str> = cases.iter().map(|(name, _)| name.as_str()).collect();
    assert_eq!((names.len(), cases.len()), (283, 283));
}

#[test]
fn every_cut_gives_the_same() {
    let lines = (0..=18)
        .map(|place| (format!("A1 cut after {place}"), line("0 0", "62", "000")))
        .collect();
    check_named(&cases_transfer::sound()[..LUMPS], lines);
}

#[test]
fn other_lumps_give_the_same() {
    let accepted = |steps: usize| line("0 0", "62", &"0".repeat(steps));
    let lines = [
        ("A1 one lump", accepted(2)),
        ("A1 single bytes", accepted(19)),
        ("A1 lumps of none around each byte", accepted(37)),
        ("A1 counters, then words", accepted(4)),
        ("A1 lumps across every edge", accepted(6)),
        ("A1 lumps of none at the start", accepted(5)),
        ("A1 lumps of none at the end", accepted(5)),
        ("A1 all that is left", accepted(2)),
        ("A1 all that is left after some", accepted(3)),
        ("A1 one more than is left", accepted(3)),
        ("A1 nothing is left", accepted(4)),
        ("A1 bytes that are not sent", accepted(2)),
    ];
    check(&cases_transfer::sound()[LUMPS..DOCUMENT_01], &lines);
}

#[test]
fn blocks_of_document_01_and_orders_come_out_as_written() {
    let lines = [
        ("A1 G2", line("0 0", "1", "000")),
        ("A1 G3", line("0 0", "00", "000")),
        ("A1 G6", line("0 0", "000", "0000")),
        (
            "A1 lowest byte first",
            line_of("0 0", "08070605040302fe", "00"),
        ),
        (
            "A1 counters first",
            line_of("0 0", "00070605040302fe", "00"),
        ),
        // Column 1 of each row is inverted.
        ("A1 3 by 2", line("0 0", "301", "00")),
        ("A1 3 by 2, bytes of 2 by 3", left("8 0", 3, "00")),
        // Columns 0 and 2 of row 0 are inverted, and column 2 of row 1.
        ("A1 2 by 3", line("0 0", "46", "00")),
        ("A1 2 by 3, bytes of 3 by 2", left("9 0", 2, "09")),
        ("A1 if words had 4 bytes", left("8 0", 2, "00")),
        ("A1 1 by 2", line("0 0", "1", "00")),
        ("A1 2 by 1", line("0 0", "00", "00")),
    ];
    check(&cases_transfer::sound()[DOCUMENT_01..WIDTHS], &lines);
}

#[test]
fn the_length_of_a_block_depends_on_k() {
    let mut lines = Vec::new();
    for k in 1..=7 {
        let right = [25, 26, 26, 27, 27, 27, 27][k - 1];
        for count in 25..=27 {
            let expected = if count < right {
                left("8 0", 3, "00")
            } else if count > right {
                left("9 0", 3, "09")
            } else {
                line("0 0", "000", "00")
            };
            lines.push((format!("A1 3 by 5, K = {k}, {count} bytes"), expected));
        }
    }
    check_named(&cases_transfer::sound()[WIDTHS..MIXED], lines);
}

#[test]
fn mixed_counters_invert_as_written() {
    // Rows 1 0 1, 1 0 2, 1 2 3, 1 1 1, 1 0 5, 1 6 4 and 1 6 3; columns 1 0 1 1 1, 2 1 0 0 0, 1 2 3 1 3, 2 2 2 3 4,
    // 5 4 3 3 3, 3 1 6 5 4 and 1 6 3 1 7.
    let shown = [
        [0x1d, 0x00, 0x1d],
        [0x03, 0x00, 0x02],
        [0x1f, 0x09, 0x1d],
        [0x1f, 0x1f, 0x1f],
        [0x1f, 0x00, 0x1d],
        [0x1f, 0x0b, 0x03],
        [0x1f, 0x0d, 0x1f],
    ];
    let mut lines = Vec::new();
    for (place, rows) in shown.iter().enumerate() {
        let output: String = rows.iter().map(|row| format!("{row:016x}")).collect();
        let name = format!("A1 mixed counters, K = {}", place + 1);
        lines.push((name, line_of("0 0", &output, "0000000000")));
    }
    check_named(&cases_transfer::sound()[MIXED..SIZES], lines);
}

#[test]
fn the_smallest_and_the_longest_blocks_come_out_as_written() {
    // Row r holds the number r, inverted.
    let inverted: String = (0..64)
        .map(|row| format!("ffffffffffffff{:02x}", 255 - row))
        .collect();
    let long = |steps: &str| line_of("0 0", &inverted, steps);
    let zeros = "0".repeat(64);
    let lines = [
        ("A1 1 by 1, 9 bytes", line("0 0", "1", "00")),
        ("A1 1 by 1, 8 bytes", left("8 0", 1, "00")),
        ("A1 1 by 1, 10 bytes", left("9 0", 1, "09")),
        ("A1 1 by 1, K = 7", line("0 0", "1", "00")),
        ("A1 64 by 64, 560 bytes", long("0000")),
        ("A1 64 by 64, 559 bytes", left("8 0", 64, "0000")),
        ("A1 64 by 64, 561 bytes", left("9 0", 64, "0009")),
        ("A1 64 by 64, 560 and 1", left("9 0", 64, "00009")),
        ("A1 64 by 64, 560 single bytes", long(&"0".repeat(561))),
        (
            "A1 64 by 64, 559 single bytes",
            left("8 0", 64, &"0".repeat(560)),
        ),
        ("A1 64 by 64, K = 4, counters 7", left("4 0", 64, "0000")),
        ("A1 64 by 64, K = 3, 560 bytes", left("9 0", 64, "0009")),
        ("A1 64 by 64, K = 3, 544 bytes", long("0000")),
        ("A1 64 by 64, K = 1, 528 bytes", long("0000")),
        ("A1 64 by 64, K = 1, 529 bytes", left("9 0", 64, "0009")),
        ("A1 64 by 1, K = 7, 537 bytes", line("0 0", &zeros, "0000")),
        (
            "A1 1 by 64, K = 7, 33 bytes",
            line_of("0 0", "fffffffffffffffa", "00"),
        ),
        ("A1 1 by 64, K = 7, 537 bytes", left("9 0", 1, "0999")),
        ("A1 64 by 1, K = 7, 33 bytes", left("8 0", 64, "00")),
    ];
    check(&cases_transfer::sound()[SIZES..], &lines);
}
