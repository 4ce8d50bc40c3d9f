//! The reads and stores with counters of three bits come out as written, from document 01 and document 02, A4 and A8.

use std::collections::BTreeMap;

#[path = "lines/words.rs"]
mod words;

use second::answer;
use second::cases_wide_counters;
use words::words;

/// So many bytes of junk, as outputs and old cells hold it before a call.
fn junk(bytes: usize) -> String {
    "a5".repeat(bytes)
}

/// The lines of all cases by their names, which are all different.
fn lines() -> BTreeMap<String, String> {
    let cases = cases_wide_counters::all();
    let mut lines = BTreeMap::new();
    for (name, call) in &cases {
        let mut made = call.clone();
        let outcome = answer::make(&mut made).unwrap();
        lines.insert(name.clone(), answer::line(&made, &outcome));
    }
    assert_eq!(lines.len(), cases.len());
    lines
}

#[test]
fn sizes_show_every_counter() {
    let lines = lines();
    let mut found = 0;
    for (name, line) in &lines {
        let Some(rest) = name.strip_prefix("A8 read, ") else {
            continue;
        };
        let numbers: Vec<u64> = rest
            .split([' ', ','])
            .filter_map(|word| word.parse().ok())
            .collect();
        let [rows, columns, k] = numbers[..] else {
            continue;
        };
        if rest != format!("{rows} by {columns}, K = {k}") {
            continue;
        }
        let counter = |place: u64| (5 * place + place / 3 + place / 7 + 1) % (k + 1);
        let mut shown = String::new();
        for row in 0..rows {
            let word: u64 = (0..columns)
                .map(|column| (counter(row).min(counter(rows + column)) % 2) << column)
                .sum();
            shown.push_str(&format!("{word:016x}"));
        }
        assert_eq!(line, &format!("0 0 {shown}"), "{name}");
        let store = &lines[&name.replace("read", "store")];
        let greatest = (0..rows + columns).map(counter).max().unwrap();
        assert!(
            store.starts_with(&format!("0 {greatest} 0 0 0 0 ")),
            "{name}"
        );
        found += 1;
    }
    assert_eq!(found, 26);
}

#[test]
fn counters_of_another_width_are_refused_for_their_length() {
    let lines = lines();
    for k in 1..=7 {
        for width in 1..=4 {
            let right = [1, 2, 2, 3, 3, 3, 3][k - 1];
            let expected = match (k, width) {
                // Counters 1 0 1, 1 0 1 0.
                (1, 1) => format!("0 0 {}", words("505")),
                // Counters 1 0 3, 2 0 1 3.
                (2, 2) => format!("4 2 {}", junk(24)),
                _ if width == right => format!("0 0 {}", words("d0c")),
                _ => format!("2 0 {}", junk(24)),
            };
            let name = format!("A8 read, K = {k}, counters of {width} bits");
            assert_eq!(lines[&name], expected, "{name}");
        }
    }
}

#[test]
fn each_bit_of_a_counter_that_straddles_counts() {
    let lines = lines();
    for value in 1..=7 {
        let odd = value % 2 == 1;
        let of_row = if odd { "007" } else { "000" };
        let of_column = if odd { "444" } else { "000" };
        let row = &lines[&format!("A8 read, counter 2 is {value}")];
        let column = &lines[&format!("A8 read, counter 5 is {value}")];
        assert_eq!(row, &format!("0 0 {}", words(of_row)));
        assert_eq!(column, &format!("0 0 {}", words(of_column)));
    }
}

#[test]
fn lengths_and_spare_bits_are_judged() {
    let lines = lines();
    let mut accepted = Vec::new();
    for (name, line) in &lines {
        if name.ends_with(" bytes") {
            if line.starts_with("0 0 ") {
                accepted.push(name.as_str());
            } else {
                assert!(line.starts_with("2 0 "), "{name}");
            }
        }
        if name.contains("spare bit") && !name.contains("no spare bit") {
            assert!(line.starts_with("3 0 "), "{name}");
        }
    }
    assert_eq!(
        accepted,
        [
            "A8 read, 1 by 1, K = 3, 1 bytes",
            "A8 read, 1 by 1, K = 4, 1 bytes",
            "A8 read, 1 by 1, K = 7, 1 bytes",
            "A8 read, 2 by 3, K = 3, 2 bytes",
            "A8 read, 2 by 3, K = 4, 2 bytes",
            "A8 read, 2 by 3, K = 7, 2 bytes",
            "A8 read, 5 by 3, K = 3, 2 bytes",
            "A8 read, 5 by 3, K = 4, 3 bytes",
            "A8 read, 5 by 3, K = 7, 3 bytes",
            "A8 read, 64 by 64, K = 3, 32 bytes",
            "A8 read, 64 by 64, K = 4, 48 bytes",
            "A8 read, 64 by 64, K = 7, 48 bytes",
            "A8 read, 9 by 7, K = 3, 4 bytes",
            "A8 read, 9 by 7, K = 4, 6 bytes",
            "A8 read, 9 by 7, K = 7, 6 bytes",
        ]
    );
    assert!(lines["A8 read, no spare bit"].starts_with("0 0 "));
    assert!(lines["A8 store, no spare bit"].starts_with("0 4 "));
    assert!(lines["A8 read, output short"].starts_with("2 0 "));
    assert!(lines["A8 store, cells short"].starts_with("2 0 0 0 0 0 "));
    assert!(lines["A8 store, counters short"].starts_with("2 0 0 0 0 0 "));
}

#[test]
fn the_first_counter_above_k_is_named() {
    let lines = lines();
    let old = junk(24);
    // K, the counters, and the index of the first above K.
    let bad = [
        (4, "[4, 5, 7, 0, 1, 2, 3]", 1),
        (4, "[4, 3, 2, 1, 5, 4, 7]", 4),
        (4, "[0, 4, 5, 7, 6, 7, 4]", 2),
        (4, "[7, 1, 5, 0, 0, 5, 0]", 0),
        (4, "[1, 0, 6, 5, 5, 7, 5]", 2),
        (5, "[5, 5, 6, 7, 5, 7, 0]", 2),
        (5, "[5, 6, 5, 5, 5, 5, 7]", 1),
        (5, "[1, 2, 3, 4, 5, 0, 6]", 6),
        (6, "[6, 6, 7, 6, 6, 7, 6]", 2),
        (6, "[0, 6, 5, 4, 3, 6, 7]", 6),
    ];
    for (k, counters, index) in bad {
        let name = format!("K = {k}, counters {counters}");
        let read = &lines[&format!("A8 read, {name}")];
        let store = &lines[&format!("A8 store, {name}")];
        assert_eq!(read, &format!("4 {index} {old}"));
        assert_eq!(store, &format!("4 0 0 0 0 {index} {old}"));
    }
    // None is above K. Even counters leave the wrong cell (0,0) misread, odd ones the right cell (2,3).
    for (k, counters) in [(4, "4"), (5, "5"), (6, "6"), (7, "7")] {
        let name = format!("K = {k}, counters [{}]", [counters; 7].join(", "));
        assert!(lines[&format!("A8 read, {name}")].starts_with("0 0 "));
        assert!(lines[&format!("A8 store, {name}")].starts_with("13 0 0 0 0 0 "));
    }
    for index in [63, 64, 127] {
        let read = &lines[&format!("A8 read, 64 by 64, counter {index}")];
        assert_eq!(read, &format!("4 {index} {}", junk(512)));
    }
}

#[test]
fn the_lowest_of_several_refusals_is_given() {
    let lines = lines();
    let old = junk(8);
    let expected = [
        ("1 before 4", "1", 0),
        ("2 before 4", "2", 0),
        ("2 before 3", "2", 0),
        ("3 before 4", "3", 0),
        ("past before 4", "3", 0),
        ("4 alone", "4", 2),
    ];
    for (name, number, index) in expected {
        let read = &lines[&format!("A8 read, {name}")];
        let store = &lines[&format!("A8 store, {name}")];
        assert_eq!(read, &format!("{number} {index} {old}"), "{name}");
        assert_eq!(store, &format!("{number} 0 0 0 0 {index} {old}"), "{name}");
    }
    // Row 4, columns 3 and 5: column 0 is inverted.
    assert_eq!(lines["A8 read, none"], format!("0 0 {}", words("0")));
    assert_eq!(
        lines["A8 store, none"],
        format!("0 5 1 1 0 0 {}", words("0"))
    );
    assert_eq!(lines["A8 store, 4 before 13"], format!("4 0 0 0 0 2 {old}"));
    assert_eq!(lines["A8 store, 13 alone"], format!("13 0 0 0 0 0 {old}"));
}
