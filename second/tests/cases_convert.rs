//! The conversions come out as written, from document 02, A8: counters are a digit each.

use std::collections::BTreeMap;

mod lines;
#[path = "lines/counters.rs"]
mod packed;

use lines::{check, junk};
use packed::counters;
use second::answer;
use second::call::Call;
use second::{cases_convert, cases_convert_refused};

/// Mixed counters of three rows and five columns by K, from 1.
const MIXED: [&str; 7] = [
    "10110111", "10221000", "12312313", "11122234", "10554333", "16431654", "16316317",
];

/// The width of counters by K, from 1.
const WIDTHS: [usize; 7] = [1, 2, 2, 3, 3, 3, 3];

/// The line of a case.
fn line_of(call: &Call) -> String {
    let mut made = call.clone();
    let outcome = answer::make(&mut made).unwrap();
    answer::line(&made, &outcome)
}

#[test]
fn every_k_to_every_target_comes_out_as_written() {
    let mut lines = Vec::new();
    for k in 1..=7 {
        for target in k..=7 {
            let output = counters(WIDTHS[target - 1], MIXED[k - 1]);
            lines.push((
                format!("A8 convert, {k} to {target}"),
                format!("0 0 {output}"),
            ));
        }
    }
    let lines: Vec<(&str, String)> = lines.iter().map(|(n, l)| (n.as_str(), l.clone())).collect();
    check(&cases_convert::all()[..28], &lines);
}

#[test]
fn accepted_conversions_come_out_as_written() {
    let cases = cases_convert::all();
    let names: BTreeMap<&str, &Call> = cases.iter().map(|(n, c)| (n.as_str(), c)).collect();
    assert_eq!(names.len(), cases.len());
    for (name, call) in &names {
        assert!(line_of(call).starts_with("0 0 "), "{name}");
    }
    let written = [
        ("A8 convert, G2 to 2", "05"),
        ("A8 convert, G2 to 4", "09"),
        ("A8 convert, G3 to 3", "96"),
        ("A8 convert, G3 to 4", "4a04"),
        ("A8 convert, G6 to 3", "5e0b"),
        ("A8 convert, G6 to 7", &counters(3, "231132")),
        ("A8 convert, G6's bytes, 1 by 5", &counters(3, "231132")),
        ("A8 convert, G6's bytes, 5 by 1", &counters(3, "231132")),
        ("A8 convert, old output ff", "1c01"),
        ("A8 convert, old output 00", "1c01"),
        ("A8 convert, old output's last bit", "1c01"),
        ("A8 convert, old output's first spare bit", "1c01"),
        ("A8 convert, old output above K", "0c"),
        ("A8 convert, 64 by 64, all 4 to 7", &"244992".repeat(16)),
        ("A8 convert, 64 by 64, all 7 to 7", &"ff".repeat(48)),
        ("A8 convert, 64 by 64, all 1 to 7", &"499224".repeat(16)),
        ("A8 convert, 64 by 64, all 3 to 4", &"dbb66d".repeat(16)),
        ("A8 convert, 64 by 64, all 1 to 3", &"55".repeat(32)),
        ("A8 convert, 1 by 1, 1 to 3", &counters(2, "10")),
        ("A8 convert, 1 by 1, 3 to 7", &counters(3, "12")),
        ("A8 convert, 2 by 3, 3 to 7", &counters(3, "12312")),
        ("A8 convert, 3 to 4, counter 2 alone", "c00000"),
        ("A8 convert, 4 to 5, counter 5 alone", "000002"),
        ("A8 convert, 1 to 7, counter 5 alone", "008000"),
    ];
    for (name, output) in written {
        assert_eq!(line_of(names[name]), format!("0 0 {output}"), "{name}");
    }
}

/// What a refused conversion prints before its output, by a part of its name.
const BY_NAME: [(&str, &str); 8] = [
    ("1 before", "1 0"),
    ("2 before", "2 0"),
    ("3 before", "3 0"),
    ("3 alone", "3 0"),
    ("4 alone", "4 2"),
    ("none", "0 0"),
    ("spare bit", "3 0"),
    ("rows", "1 0"),
];

#[test]
fn refused_conversions_come_out_as_written() {
    let cases = cases_convert_refused::all();
    for (place, (name, call)) in cases.iter().enumerate() {
        let line = line_of(call);
        let Call::GridConvert(before) = call else {
            panic!("{name} is no conversion")
        };
        let by_name = BY_NAME.iter().find(|(part, _)| name.contains(part));
        if let Some((_, expected)) = by_name {
            assert!(line.starts_with(&format!("{expected} ")), "{name}: {line}");
        }
        // A refusal leaves the junk of the output.
        let is_junk = before.output.iter().all(|byte| *byte == 0xa5);
        if !line.starts_with('0') && is_junk && !before.output.is_empty() {
            assert!(line.ends_with(&format!(" {}", junk(before.output.len()))));
        }
        // The first 21 are smaller targets, and the next 36 have a number out of range.
        if place < 21 + 36 {
            assert!(line.starts_with("1 0 "), "{name}: {line}");
        }
    }
}

#[test]
fn lengths_of_conversions_are_judged() {
    let mut accepted = Vec::new();
    let cases = cases_convert_refused::all();
    for (name, call) in cases.iter().filter(|(name, _)| name.ends_with(" bytes")) {
        let line = line_of(call);
        if line.starts_with("0 0 ") {
            accepted.push(name.strip_prefix("A8 convert, ").unwrap());
        } else {
            assert!(line.starts_with("2 0 "), "{name}: {line}");
        }
    }
    assert_eq!(
        accepted,
        [
            "3 by 5, 1 to 2, 1 and 2 bytes",
            "64 by 64, 1 to 2, 16 and 32 bytes",
            "3 by 5, 1 to 7, 1 and 3 bytes",
            "64 by 64, 1 to 7, 16 and 48 bytes",
            "3 by 5, 3 to 3, 2 and 2 bytes",
            "64 by 64, 3 to 3, 32 and 32 bytes",
            "3 by 5, 3 to 4, 2 and 3 bytes",
            "64 by 64, 3 to 4, 32 and 48 bytes",
            "3 by 5, 4 to 7, 3 and 3 bytes",
            "64 by 64, 4 to 7, 48 and 48 bytes",
            "3 by 5, 7 to 7, 3 and 3 bytes",
            "64 by 64, 7 to 7, 48 and 48 bytes",
        ]
    );
}

#[test]
fn conversions_name_the_first_counter_above_k() {
    let answers = [
        "4 0", "4 2", "4 3", "4 6", "0 0", "4 1", "4 1", "4 4", "4 2", "4 2", "4 0", "4 4", "4 6",
        "0 0", "4 2", "4 1", "4 6", "0 0", "4 2", "4 6", "0 0", "0 0", "4 63", "4 64", "4 127",
    ];
    let cases = cases_convert_refused::all();
    let found: Vec<String> = cases
        .iter()
        .filter(|(name, _)| name.contains(", counter"))
        .filter(|(name, _)| !name.contains("before") && !name.ends_with("513"))
        .map(|(_, call)| {
            let line = line_of(call);
            let figures: Vec<&str> = line.split(' ').take(2).collect();
            figures.join(" ")
        })
        .collect();
    assert_eq!(found, answers);
}
