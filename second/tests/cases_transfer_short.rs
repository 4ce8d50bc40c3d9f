//! The transfers that are finished short, again or before a new start come out as written, from document 02, A1.

mod lines;
#[path = "lines/transfers.rs"]
mod transfers;

use lines::check;
use second::cases_transfer_short;
use transfers::{left, line};

/// Where the cases of each kind start.
const REPEATED: usize = 19;
const NEW_STARTS: usize = REPEATED + 15;
const OUTPUTS: usize = NEW_STARTS + 17;

#[test]
fn short_blocks_are_refused_whatever_they_hold() {
    let short = |steps: &str| left("8 0", 2, steps);
    let lines = [
        ("A1 no script", short("0")),
        ("A1 no bytes, no script", short("0")),
        ("A1 no bytes, a lump of none", short("00")),
        ("A1 no bytes, a lump of 18", short("00")),
        ("A1 short by one", short("00")),
        ("A1 short by one, in single bytes", short(&"0".repeat(18))),
        ("A1 bytes short by one", short("00")),
        ("A1 counters alone", short("00")),
        ("A1 a part of the counters", short("00")),
        ("A1 all but a word", short("00")),
        ("A1 zeros that are missing", short("00")),
        ("A1 a spare bit, short by one", short("00")),
        ("A1 a spare bit, counters alone", short("00")),
        ("A1 a bit past, short by one", short("00")),
        ("A1 a bit past, its word alone", short("00")),
        ("A1 a bad counter, short by one", short("00")),
        ("A1 a bad counter, counters alone", short("00")),
        ("A1 bad counters, K = 4, short", short("00")),
        ("A1 bad counters, K = 4, whole", left("4 0", 2, "00")),
    ];
    check(&cases_transfer_short::all()[..REPEATED], &lines);
}

#[test]
fn finishes_may_be_repeated_and_lumps_may_follow() {
    let accepted = |steps: &str| line("0 0", "62", steps);
    let each_byte = format!("0{}00", "08".repeat(17));
    let lines = [
        ("A1 short finish, then the rest", accepted("0080")),
        ("A1 two short finishes, then the rest", accepted("00880")),
        ("A1 a finish at every edge", accepted("08080800")),
        ("A1 a finish after each byte", accepted(&each_byte)),
        ("A1 a finish inside the counters", accepted("0080")),
        ("A1 a finish inside a word", accepted("0080")),
        ("A1 a lump of none after a short finish", accepted("00800")),
        ("A1 short finish, still short", left("8 0", 2, "0080")),
        ("A1 finished twice", accepted("000")),
        ("A1 finished four times", accepted("00000")),
        ("A1 a lump of none after a finish", accepted("0000")),
        ("A1 lumps of none between finishes", accepted("0000000")),
        ("A1 a lump of none on a full block", accepted("000")),
        ("A1 no bytes are left for a full block", accepted("000")),
        ("A1 finished without bytes, twice", left("8 0", 2, "08")),
    ];
    check(&cases_transfer_short::all()[REPEATED..NEW_STARTS], &lines);
}

#[test]
fn new_starts_begin_with_nothing() {
    let one = |steps: &str| line("0 0", "62", steps);
    let other = |steps: &str| line("0 0", "51", steps);
    let short = |steps: &str| left("8 0", 2, steps);
    let lines = [
        ("A1 a new start at once", one("000")),
        ("A1 a new start at the end", short("000")),
        ("A1 new starts alone", short("0000")),
        ("A1 a new start after a lump of none", one("0000")),
        ("A1 a new start gives no bytes back", short("0000")),
        ("A1 a new start keeps no bytes", short("0000")),
        ("A1 a new start in the middle", other("0000")),
        ("A1 the block again from its start", one("0000")),
        ("A1 a new start after a short finish", other("00800")),
        ("A1 a new start on a full block", other("0000")),
        ("A1 a new start after a finish", other("00000")),
        ("A1 a new start, then the block is full", other("0000")),
        ("A1 a new start, a full block and a finish", other("00000")),
        ("A1 two new starts", one("00000000")),
        ("A1 two new starts, short", line("8 0", "51", "00000000")),
        ("A1 short after a block without a finish", short("0000")),
        ("A1 a new start has its own block alone", short("0900")),
    ];
    check(&cases_transfer_short::all()[NEW_STARTS..OUTPUTS], &lines);
}

#[test]
fn outputs_stay_until_another_finish_is_accepted() {
    let lines = [
        ("A1 accepted, then short", line("8 0", "62", "00000")),
        ("A1 accepted, then nothing", line("8 0", "62", "0000")),
        ("A1 accepted, then too much", line("9 0", "62", "0009")),
        (
            "A1 accepted, too much, a new start",
            line("8 0", "62", "00090"),
        ),
        ("A1 accepted, then a spare bit", line("3 0", "62", "00000")),
        ("A1 accepted, then a bit past", line("3 0", "62", "00000")),
        (
            "A1 accepted, then a bad counter",
            line("4 2", "51", "00000"),
        ),
        ("A1 a spare bit, then accepted", line("0 0", "62", "00300")),
        (
            "A1 accepted, then another block",
            line("0 0", "51", "000000"),
        ),
        ("A1 accepted never, output of 3", left("2 0", 3, "00200")),
    ];
    check(&cases_transfer_short::all()[OUTPUTS..], &lines);
}
