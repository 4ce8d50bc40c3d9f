//! The transfers with a lump that would exceed the block come out as written, from document 02, A1.

mod lines;
#[path = "lines/transfers.rs"]
mod transfers;

use lines::check;
use second::cases_transfer_over;
use transfers::{left, line};

/// Where the cases of each kind start.
const KEPT: usize = 15;
const NEW_STARTS: usize = KEPT + 17;
const BEFORE_OTHERS: usize = NEW_STARTS + 15;

/// The line of a transfer that ends with refusal 9 and leaves two words of junk.
fn over(steps: &str) -> String {
    left("9 0", 2, steps)
}

#[test]
fn lumps_that_exceed_the_block_are_refused() {
    let lines = [
        ("A1 over by one", over("09")),
        ("A1 over by a byte 0", over("09")),
        ("A1 over by one, in a lump of its own", over("009")),
        (
            "A1 over by the last of single bytes",
            over(&format!("{}9", "0".repeat(19))),
        ),
        ("A1 over by one, cut after the counters", over("009")),
        ("A1 over by one, cut before the end", over("009")),
        ("A1 over by many", over("09")),
        ("A1 over by many, in a lump of its own", over("009")),
        ("A1 over by another block", over("09")),
        ("A1 another block, no new start", over("009")),
        (
            "A1 another block after a finish, no new start",
            line("9 0", "62", "0009"),
        ),
        ("A1 asked for more, over by one", over("09")),
        ("A1 asked for more, not over", line("0 0", "62", "000")),
        ("A1 not over but for what is left", left("8 0", 2, "0000")),
        ("A1 over by many, 1,024 bytes", over("099999")),
    ];
    check(&cases_transfer_over::all()[..KEPT], &lines);
}

#[test]
fn every_later_call_is_refused_alike() {
    let lines = [
        ("A1 over, then a lump of none", over("099")),
        ("A1 over, then a lump", over("099")),
        ("A1 over, then a finish", over("099")),
        ("A1 over on a full block, then finishes", over("00999")),
        (
            "A1 over on a full block, then a lump of none",
            over("00999"),
        ),
        ("A1 over, then a lump that would fit", over("0099")),
        ("A1 over, a finish, a lump that would fit", over("00999")),
        (
            "A1 over, a lump of none, one that would fit",
            over("009999"),
        ),
        ("A1 over, then a whole block", over("099")),
        ("A1 over, a finish, a whole block, a finish", over("09999")),
        ("A1 over, then all kinds of calls", over("0999999999")),
        ("A1 over twice", over("099")),
        ("A1 short finish, then over", over("0089")),
        ("A1 short finish, over, then a finish", over("00899")),
        ("A1 accepted, then over", line("9 0", "62", "0009")),
        (
            "A1 accepted, over, then a finish",
            line("9 0", "62", "00099"),
        ),
        ("A1 accepted twice, then over", line("9 0", "62", "00009")),
    ];
    check(&cases_transfer_over::all()[KEPT..NEW_STARTS], &lines);
}

#[test]
fn a_new_start_ends_the_refusals_and_gives_nothing_back() {
    let other = |steps: &str| line("0 0", "51", steps);
    let short = |steps: &str| left("8 0", 2, steps);
    let lines = [
        ("A1 over, then a new start", short("090")),
        ("A1 over, a new start, a finish", short("0908")),
        ("A1 over, a new start, a lump of none", short("0900")),
        ("A1 over, a new start, a block", other("0900")),
        ("A1 over, a finish, a new start, a block", other("09900")),
        (
            "A1 over on a full block, a new start, a block",
            other("00900"),
        ),
        ("A1 a refused lump gives nothing back", other("00900")),
        (
            "A1 a refused lump is not taken up to the end",
            short("00900"),
        ),
        ("A1 lumps after it are used up too", other("099900")),
        ("A1 over, a new start, short", short("0900")),
        ("A1 over, a new start, over", over("0909")),
        ("A1 over, a new start, over, a finish", over("09099")),
        ("A1 over, two new starts, a block", other("09000")),
        ("A1 accepted, over, a new start, a block", other("000900")),
        (
            "A1 accepted, over, a new start, short",
            line("8 0", "62", "000900"),
        ),
    ];
    check(
        &cases_transfer_over::all()[NEW_STARTS..BEFORE_OTHERS],
        &lines,
    );
}

#[test]
fn it_goes_before_other_refusals() {
    let lines = [
        ("A1 over and a spare bit", over("009")),
        ("A1 over and a bit past", over("009")),
        ("A1 over and a bad counter", over("009")),
        ("A1 over and all of them", over("009")),
        ("A1 over and no output", left("9 0", 0, "009")),
        ("A1 over and an output of 1", left("9 0", 1, "009")),
        ("A1 over and an output of 3", left("9 0", 3, "009")),
        (
            "A1 over, all of them, an output of 3",
            left("9 0", 3, "009"),
        ),
        ("A1 over at the start, an output of 3", left("9 0", 3, "09")),
        ("A1 a bad counter, then over", over("0049")),
        ("A1 a spare bit, then over", over("0039")),
    ];
    check(&cases_transfer_over::all()[BEFORE_OTHERS..], &lines);
}
