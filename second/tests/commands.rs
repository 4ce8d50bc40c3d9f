//! The commands as they are run: lines, bad calls, and the same calls for the same seed.

use std::io::Write;
use std::process::{Command, Output, Stdio};

use second::call::{next_call, Call};

/// Runs the program with these arguments and this input.
fn second(arguments: &[&str], input: &[u8]) -> Output {
    let mut child = Command::new(env!("CARGO_BIN_EXE_second"))
        .args(arguments)
        .stdin(Stdio::piped())
        .stdout(Stdio::piped())
        .stderr(Stdio::piped())
        .spawn()
        .unwrap();
    let mut pipe = child.stdin.take().unwrap();
    let input = input.to_vec();
    let feeder = std::thread::spawn(move || {
        let _ = pipe.write_all(&input);
    });
    let output = child.wait_with_output().unwrap();
    feeder.join().unwrap();
    output
}

/// What `run` prints; it must end well.
fn printed(input: &[u8]) -> String {
    let output = second(&["run"], input);
    assert!(output.status.success());
    assert!(output.stderr.is_empty());
    String::from_utf8(output.stdout).unwrap()
}

/// What is printed where the first call is cut short.
const CUT_SHORT: &str = "bad call 1 at byte 0: cut short\n";

/// A grid read of one cell, K = 1, counters 03: the bytes of the format, written out.
fn one_cell_read() -> Vec<u8> {
    let mut bytes = vec![4];
    for number in [1u8, 1, 1] {
        bytes.extend([number, 0, 0, 0, 0, 0, 0, 0]);
    }
    bytes.extend([1, 0, 0, 0, 0, 0, 0, 0, 0, 0]);
    bytes.extend([1, 0, 3]);
    bytes.extend([1, 0, 9, 0, 0, 0, 0, 0, 0, 0]);
    bytes
}

#[test]
fn calls_print_one_line_each() {
    let line = "0 0 0000000000000001\n";
    assert_eq!(printed(&[]), "");
    assert_eq!(printed(&one_cell_read()), line);
    let twice = [one_cell_read(), one_cell_read()].concat();
    assert_eq!(printed(&twice), line.repeat(2));
}

/// The plan or the store of one cell that is stuck at 0, data 1, K = 1, with these counters: the bytes, written out.
fn one_cell_stuck(tag: u8, counters: u8) -> Vec<u8> {
    let mut bytes = vec![tag];
    for number in [1u8, 1, 1] {
        bytes.extend([number, 0, 0, 0, 0, 0, 0, 0]);
    }
    for word in [1u8, 1, 0] {
        bytes.extend([1, 0, word, 0, 0, 0, 0, 0, 0, 0]);
    }
    bytes.extend([1, 0, counters]);
    if tag == 5 {
        bytes.extend([1, 0, 0, 0, 0, 0, 0, 0, 0, 0]);
    }
    bytes
}

#[test]
fn plans_print_four_counts_and_stores_an_index_too() {
    let plan = one_cell_stuck(3, 0);
    let store = one_cell_stuck(5, 3);
    assert_eq!((plan.len(), store.len()), (58, 68));
    assert_eq!(printed(&plan), "0 1 1 1 0 03\n");
    assert_eq!(printed(&store), "0 1 1 1 0 0 0000000000000000\n");
    let refused = one_cell_stuck(5, 1);
    assert_eq!(printed(&refused), "13 0 0 0 0 0 0000000000000000\n");
}

/// A conversion of 2 by 2 from K = 3 to a target, of the counters of G3: the bytes, written out.
fn conversion_of_g3(target: u8, counters: u8, output: &[u8]) -> Vec<u8> {
    let mut bytes = vec![6];
    for number in [2u8, 2, 3, target] {
        bytes.extend([number, 0, 0, 0, 0, 0, 0, 0]);
    }
    bytes.extend([1, 0, counters]);
    bytes.extend([output.len() as u8, 0]);
    bytes.extend(output);
    bytes
}

#[test]
fn conversions_print_an_index_and_the_output() {
    let wider = conversion_of_g3(4, 0x96, &[9, 9]);
    assert_eq!(wider.len(), 40);
    // Counters 2 1, 1 2: in three bits 010 001 001 010 from the lowest on, 0x44a.
    assert_eq!(printed(&wider), "0 0 4a04\n");
    assert_eq!(printed(&conversion_of_g3(3, 0x96, &[9])), "0 0 96\n");
    assert_eq!(printed(&conversion_of_g3(2, 0x96, &[9])), "1 0 09\n");
    assert_eq!(printed(&conversion_of_g3(4, 0x96, &[9])), "2 0 09\n");
    assert_eq!(printed(&conversion_of_g3(4, 0x96, &[])), "2 0 -\n");
    for length in 1..wider.len() {
        assert_eq!(printed(&wider[..length]), CUT_SHORT);
    }
}

/// A transfer of one cell, K = 1, of the bytes of G2 and one more, with this script: the bytes, written out.
fn transfer_of_g2(script: &[u8]) -> Vec<u8> {
    let mut bytes = vec![7];
    for number in [1u8, 1, 1] {
        bytes.extend([number, 0, 0, 0, 0, 0, 0, 0]);
    }
    bytes.extend([10, 0, 3, 0, 0, 0, 0, 0, 0, 0, 0, 7]);
    bytes.extend([script.len() as u8, 0]);
    bytes.extend(script);
    bytes.extend([1, 0, 9, 0, 0, 0, 0, 0, 0, 0]);
    bytes
}

#[test]
fn transfers_print_an_index_the_output_and_the_steps() {
    let before = "0000000000000009";
    let shown = "0000000000000001";
    let call = transfer_of_g2(&[4, 255, 5]);
    assert_eq!(call.len(), 52);
    assert_eq!(printed(&call), format!("0 0 {shown} 00000800\n"));
    let short = transfer_of_g2(&[]);
    assert_eq!(printed(&short), format!("8 0 {before} 00\n"));
    let over = transfer_of_g2(&[9, 255, 1, 0, 255]);
    assert_eq!(printed(&over), format!("9 0 {shown} 000000090909\n"));
    for length in 1..call.len() {
        assert_eq!(printed(&call[..length]), CUT_SHORT);
    }
}

#[test]
fn bad_calls_stop_the_run() {
    let good = one_cell_read();
    assert_eq!(good.len(), 48);
    let line = "0 0 0000000000000001\n";
    for length in 1..good.len() {
        assert_eq!(printed(&good[..length]), CUT_SHORT);
        let after_good = [&good, &good[..length]].concat();
        assert_eq!(
            printed(&after_good),
            format!("{line}bad call 2 at byte 48: cut short\n")
        );
    }
    for tag in [0, 8, 255] {
        let input = [good.clone(), vec![tag], good.clone()].concat();
        assert_eq!(
            printed(&input),
            format!("{line}bad call 2 at byte 48: its tag\n")
        );
    }
}

#[test]
fn a_bad_call_says_which_it_is_where_it_begins_and_why() {
    // A grid read of one cell, and calls of 58 and 68 bytes before the bad one.
    let before = [one_cell_read(), one_cell_stuck(3, 0), one_cell_stuck(5, 3)].concat();
    let last = |bad: &[u8]| {
        let lines = printed(&[&before, bad].concat());
        assert_eq!(lines.lines().count(), 4);
        String::from(lines.lines().last().unwrap())
    };
    // A tag that is none, alone and with bytes behind it.
    assert_eq!(last(&[0]), "bad call 4 at byte 174: its tag");
    assert_eq!(last(&[255; 99]), "bad call 4 at byte 174: its tag");
    // 1,025 elements of the first buffer, and of the third behind two empty ones, with nothing behind them and with much.
    let number = [2, 1, 0, 0, 0, 0, 0, 0, 0];
    let length = "bad call 4 at byte 174: a length";
    assert_eq!(last(&[&number[..], &[1, 4]].concat()), length);
    assert_eq!(last(&[&number[..], &[1, 4], &[0; 9999]].concat()), length);
    assert_eq!(last(&[&number[..], &[0, 0, 0, 0, 1, 4]].concat()), length);
    // Half of a length, two of the three bytes of a buffer, and none of 1,024 bytes.
    let short = "bad call 4 at byte 174: cut short";
    assert_eq!(last(&[&number[..], &[255]].concat()), short);
    assert_eq!(last(&[&number[..], &[3, 0, 255, 255]].concat()), short);
    assert_eq!(last(&[&number[..], &[0, 4]].concat()), short);
}

/// A pointer read, n = 1, whose cells are so many bytes and whose other buffers have none.
fn read_of_bytes(count: u16) -> Vec<u8> {
    let mut input = vec![2, 1, 0, 0, 0, 0, 0, 0, 0];
    input.extend(count.to_le_bytes());
    input.extend(vec![0; usize::from(count)]);
    input.extend([0, 0, 0, 0]);
    input
}

/// A grid read of one cell whose cells are so many words and whose other buffers have none.
fn read_of_words(count: u16) -> Vec<u8> {
    let mut input = vec![4];
    for number in [1u8, 1, 1] {
        input.extend([number, 0, 0, 0, 0, 0, 0, 0]);
    }
    input.extend(count.to_le_bytes());
    input.extend(vec![0; 8 * usize::from(count)]);
    input.extend([0, 0, 0, 0]);
    input
}

#[test]
fn a_buffer_holds_at_most_1024_elements() {
    for count in [512, 513, 1023, 1024] {
        assert_eq!(printed(&read_of_bytes(count)), "2 -\n");
        assert_eq!(printed(&read_of_words(count)), "2 0 -\n");
    }
    for count in [1025, 2048, u16::MAX] {
        let line = "bad call 1 at byte 0: a length\n";
        assert_eq!(printed(&read_of_bytes(count)), line);
        assert_eq!(printed(&read_of_words(count)), line);
    }
}

#[test]
fn made_calls_run_to_the_end() {
    let made = second(&["make", "7", "2000"], &[]).stdout;
    assert_eq!(made, second(&["make", "7", "2000"], &[]).stdout);
    let lines = printed(&made);
    assert_eq!(lines.lines().count(), 2000);
    assert!(!lines.contains("bad call"));
}

#[test]
fn only_without_a_word_more_are_transfers_made() {
    let has_transfers = |arguments: &[&str]| {
        let made = second(arguments, &[]).stdout;
        let mut input = made.as_slice();
        let mut found = false;
        while let Some(call) = next_call(&mut input).unwrap() {
            found |= matches!(call, Call::Transfer(_));
        }
        found
    };
    assert!(has_transfers(&["make", "7", "100"]));
    assert!(!has_transfers(&["make", "7", "2000", "whole"]));
    assert!(!has_transfers(&["make", "7", "2000", "3"]));
}

#[test]
fn cases_of_fragments_run_to_the_end() {
    let cases = second(&["fragments"], &[]).stdout;
    let lines = printed(&cases);
    assert_eq!(lines.lines().count(), 283);
    assert!(!lines.contains("bad call"));
}

#[test]
fn cases_run_to_the_end() {
    let cases = second(&["cases"], &[]).stdout;
    assert_eq!(printed(&cases).lines().count(), 60 + 277);
}

#[test]
fn cases_of_seven_levels_run_to_the_end() {
    let cases = second(&["levels"], &[]).stdout;
    let lines = printed(&cases);
    assert_eq!(lines.lines().count(), 821);
    assert!(!lines.contains("bad call"));
}

#[test]
fn long_calls_print_one_line_each() {
    let calls = second(&["long"], &[]).stdout;
    assert_eq!(calls, second(&["long"], &[]).stdout);
    let lines = printed(&calls);
    let numbers: String = lines.lines().map(|line| &line[..1]).collect();
    assert_eq!(numbers, "2222212221222212221222221");
}

#[test]
fn unknown_commands_fail() {
    for arguments in [
        &[][..],
        &["walk"],
        &["make", "1"],
        &["make", "x", "1"],
        &["make", "1", "1", "4"],
        &["make", "1", "1", "half"],
        &["fragments", "1"],
    ] {
        assert!(!second(arguments, &[]).status.success());
    }
}
