//! The plans of up to seven levels and what goes with them come out as written: the counters of each staircase were
//! derived by hand from document 01, as one digit a counter.

mod lines;
#[path = "lines/counters.rs"]
mod packed;
#[path = "lines/words.rs"]
mod words;

use lines::{check, junk};
use packed::counters;
use second::cases_levels;
use words::words;

/// The counters of G6 grown to two to seven levels, rows and then columns.
const STAIRCASES: [&str; 6] = [
    "2112",
    "231132",
    "24311342",
    "2453113542",
    "246531135642",
    "24675311357642",
];

/// The width of counters by K, from 1.
const WIDTHS: [usize; 7] = [1, 2, 2, 3, 3, 3, 3];

/// Words, two hex digits each, as they print.
fn long_words(pairs: &[&str]) -> String {
    pairs.iter().map(|pair| format!("{pair:0>16}")).collect()
}

/// The lines of G9: two bytes of counters are right for K = 4 to 7 alone.
fn nine() -> Vec<(String, String)> {
    let two = junk(16);
    let mut lines = Vec::new();
    let mut add = |name: String, number: u8, bytes: usize| {
        let words = words("12");
        let accepted = number == 0;
        let counters = if accepted {
            String::from("0000")
        } else {
            junk(bytes)
        };
        let counters = if bytes == 0 {
            String::from("-")
        } else {
            counters
        };
        let counters = if accepted && bytes == 1 {
            String::from("00")
        } else {
            counters
        };
        let cells = if accepted { &words } else { &two };
        lines.push((
            format!("A8 G9, {name}"),
            format!("{number} 0 0 0 0 {counters}"),
        ));
        lines.push((
            format!("A8 G9 store, {name}"),
            format!("{number} 0 0 0 0 0 {cells}"),
        ));
        lines.push((format!("A8 G9 read, {name}"), format!("{number} 0 {cells}")));
    };
    for (k, number) in [
        ("0", 1),
        ("1", 2),
        ("3", 2),
        ("4", 0),
        ("5", 0),
        ("6", 0),
        ("7", 0),
        ("8", 1),
        ("9", 1),
        ("263", 1),
        ("4294967303", 1),
        ("9223372036854775808", 1),
        ("18446744073709551615", 1),
    ] {
        add(format!("K = {k}"), number, 2);
    }
    for (k, bytes, number) in [
        (3, 1, 0),
        (4, 1, 2),
        (4, 3, 2),
        (7, 1, 2),
        (7, 3, 2),
        (8, 1, 1),
        (8, 0, 1),
    ] {
        add(format!("K = {k}, {bytes} bytes of counters"), number, bytes);
    }
    lines
}

/// The lines of G5: its plan and its stores are refused at every K, and its cells are read.
fn five() -> Vec<(String, String)> {
    let mut lines = Vec::new();
    for k in 4..=7 {
        let refused = format!("13 0 0 0 0 0 {}", junk(16));
        // Cells 1 and 2. With 2 1, 1 2 all but (0,1) are inverted: 0 and 1. With K, K - 1 in their place all but (0,1)
        // have K - 1 as the smaller, and (0,1) has K: for K even all but (0,1) are inverted again, for K odd it alone.
        let at_k = if k % 2 == 0 { words("01") } else { words("32") };
        lines.push((format!("A8 G5, K = {k}"), String::from("7 0 0 0 0 a5a5")));
        lines.push((
            format!("A8 G5 store, counters of G3, K = {k}"),
            refused.clone(),
        ));
        lines.push((format!("A8 G5 store, counters at K = {k}"), refused));
        lines.push((
            format!("A8 G5 read, counters of G3, K = {k}"),
            format!("0 0 {}", words("01")),
        ));
        lines.push((
            format!("A8 G5 read, counters at K = {k}"),
            format!("0 0 {at_k}"),
        ));
    }
    lines
}

/// The lines of the staircases at every K.
fn six() -> Vec<(String, String)> {
    let cells = ["1", "3", "7", "f", "1f", "3f", "7f"];
    let mut lines = Vec::new();
    for levels in 2..=7 {
        let digits = STAIRCASES[levels - 2];
        for k in 1..=7 {
            let name = format!("A8 G6 of {levels} levels, K = {k}");
            let packed = counters(WIDTHS[k - 1], digits);
            // So many wrong cells as levels, and one right cell less.
            let figures = format!("0 {levels} {} {levels} {}", 2 * levels - 1, levels - 1);
            if k < levels {
                lines.push((name, format!("7 0 0 0 0 {}", junk(packed.len() / 2))));
                continue;
            }
            lines.push((name.clone(), format!("{figures} {packed}")));
            if k == levels || k == 7 {
                let stored = long_words(&cells[..levels]);
                lines.push((format!("{name}, store"), format!("{figures} 0 {stored}")));
                let zeros = words(&"0".repeat(levels));
                lines.push((format!("{name}, read"), format!("0 0 {zeros}")));
            }
        }
    }
    lines
}

/// The lines of seven levels' counters at a lower K, then with one counter changed.
fn six_foreign() -> Vec<(String, String)> {
    let old = junk(56);
    let mut lines = Vec::new();
    // Rows 2 4 6 7: the first above 4 and above 5 is the 6.
    for (k, index) in [(4, 2), (5, 2), (6, 3)] {
        let name = format!("seven levels' counters, K = {k}");
        lines.push((
            format!("A8 G6 store, {name}"),
            format!("4 0 0 0 0 {index} {old}"),
        ));
        lines.push((format!("A8 G6 read, {name}"), format!("4 {index} {old}")));
    }
    for place in [0, 2, 3, 5, 6, 7, 10, 13] {
        for change in ["lowered", "raised"] {
            // Counters 3 and 10 are 7, and no more can be raised.
            if change == "lowered" || ![3, 10].contains(&place) {
                let name = format!("A8 G6 store, seven levels, counter {place} {change}");
                lines.push((name, format!("13 0 0 0 0 0 {old}")));
            }
        }
    }
    lines
}

/// The lines of the blocks with room beside.
fn beside() -> Vec<(String, String)> {
    let of_eight = counters(3, "2467531013576420");
    let with_idle = long_words(&["1", "3", "87", "8f", "9f", "bf", "ff", "87"]);
    let zeros = "0".repeat(57);
    let corner = counters(3, &format!("{zeros}2467531{zeros}1357642"));
    let lines = [
        (
            "A8 G7 grown, fifteen in a chain",
            format!("7 0 0 0 0 {}", junk(6)),
        ),
        (
            "A8 G7 grown, fourteen in a chain",
            format!("0 7 14 7 7 {of_eight}"),
        ),
        (
            "A8 G6 of 7 levels in 8 by 8",
            format!("0 7 13 7 6 {of_eight}"),
        ),
        // Row 7 has 6 and column 7 has 5: the smaller is 5 from row 2 to row 4, 3 and 1 below, and 5 in the corner.
        (
            "A8 G6 store, idle row and column",
            format!("0 7 13 7 6 0 {with_idle}"),
        ),
        (
            "A8 G6 of 7 levels turned",
            format!("0 7 13 7 6 {}", counters(3, "13576422467531")),
        ),
        (
            "A8 G8 of thirteen, K = 6",
            format!("0 6 13 6 7 {}", counters(3, "13564200246531")),
        ),
        (
            "A8 G6 of 7 levels in 64 by 64",
            format!("0 7 13 7 6 {corner}"),
        ),
        (
            "A8 G6 of 7 levels in 64 by 64, 47 bytes",
            format!("2 0 0 0 0 {}", junk(47)),
        ),
        (
            "A8 G6 of 7 levels in 64 by 64, 49 bytes",
            format!("2 0 0 0 0 {}", junk(49)),
        ),
        (
            "A8 G6 of 7 levels in 64 by 64, K = 6",
            format!("7 0 0 0 0 {}", junk(48)),
        ),
    ];
    lines
        .map(|(name, line)| (String::from(name), line))
        .to_vec()
}

/// The lines of a loop beside a lower refusal.
fn several() -> Vec<(String, String)> {
    let lines = [
        ("A8 plan, 1 before 7", "1 0 0 0 0 a5a5"),
        ("A8 plan, 2 before 7", "2 0 0 0 0 a5"),
        ("A8 plan, 2 before 3 and 7", "2 0 0 0 0 a5a5a5"),
        ("A8 plan, 3 before 7", "3 0 0 0 0 a5a5"),
    ];
    lines
        .map(|(name, line)| (String::from(name), String::from(line)))
        .to_vec()
}

#[test]
fn the_cases_of_seven_levels_come_out_as_written() {
    let lines = [nine(), five(), six(), six_foreign(), beside(), several()].concat();
    let lines: Vec<(&str, String)> = lines
        .iter()
        .map(|(name, line)| (name.as_str(), line.clone()))
        .collect();
    check(&cases_levels::all(), &lines);
}
