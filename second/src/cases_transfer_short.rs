//! Transfers that are finished short, more than once, or before a new start (document 02, A1). They tell apart a finish
//! that hands out what is there, one that ends the transfer, and a new start that keeps something.

use crate::cases_pointer::Case;
use crate::transfer_case::{block, case, into, one, other, small, END, NEW};

/// Finishes of a block that is not there whole, whatever the bytes so far would give.
fn short() -> Vec<Case> {
    let spare = block(&[0x39, 0x05], &[3, 6]);
    let past = block(&[0x39, 0x01], &[11, 6]);
    let seven = block(&[0xff, 0xff, 0xff], &[0, 0]);
    vec![
        small("no script", &one(), &[]),
        small("no bytes, no script", &[], &[]),
        small("no bytes, a lump of none", &[], &[0]),
        small("no bytes, a lump of 18", &[], &[18]),
        small("short by one", &one(), &[17]),
        small("short by one, in single bytes", &one(), &[1; 17]),
        small("bytes short by one", &one()[..17], &[18]),
        small("counters alone", &one(), &[2]),
        small("a part of the counters", &one(), &[1]),
        small("all but a word", &one(), &[10]),
        small("zeros that are missing", &one()[..11], &[253]),
        small("a spare bit, short by one", &spare, &[17]),
        small("a spare bit, counters alone", &spare, &[2]),
        small("a bit past, short by one", &past, &[17]),
        small("a bit past, its word alone", &past, &[10]),
        case("a bad counter, short by one", [2, 3, 2], &one(), &[17]),
        case("a bad counter, counters alone", [2, 3, 2], &one(), &[2]),
        case("bad counters, K = 4, short", [2, 6, 4], &seven, &[18]),
        case("bad counters, K = 4, whole", [2, 6, 4], &seven, &[19]),
    ]
}

/// Finishes on the way to a whole block, and finishes that are made again.
fn repeated() -> Vec<Case> {
    vec![
        small("short finish, then the rest", &one(), &[17, END, 1]),
        small(
            "two short finishes, then the rest",
            &one(),
            &[10, END, END, 8],
        ),
        small(
            "a finish at every edge",
            &one(),
            &[END, 2, END, 8, END, 8, END],
        ),
        small("a finish after each byte", &one(), &[1, END].repeat(18)),
        small("a finish inside the counters", &one(), &[1, END, 17]),
        small("a finish inside a word", &one(), &[5, END, 13]),
        small(
            "a lump of none after a short finish",
            &one(),
            &[17, END, 0, 1],
        ),
        small("short finish, still short", &one(), &[9, END, 8]),
        small("finished twice", &one(), &[18, END]),
        small("finished four times", &one(), &[18, END, END, END]),
        small("a lump of none after a finish", &one(), &[18, END, 0]),
        small(
            "lumps of none between finishes",
            &one(),
            &[18, END, 0, END, 0, END],
        ),
        small("a lump of none on a full block", &one(), &[18, 0]),
        small("no bytes are left for a full block", &one(), &[18, 253]),
        small("finished without bytes, twice", &[], &[END]),
    ]
}

/// New starts after each state, with the bytes of other blocks.
fn new_starts() -> Vec<Case> {
    let both = [one(), other()].concat();
    let cut = [&one()[..10], &other()].concat();
    let three = [one(), other(), one()].concat();
    let short = [&one()[..], &other()[..17]].concat();
    let same = [&one()[..10], &one()].concat();
    vec![
        small("a new start at once", &one(), &[NEW, 18]),
        small("a new start at the end", &one(), &[18, NEW]),
        small("new starts alone", &one(), &[NEW, NEW, NEW]),
        small("a new start after a lump of none", &one(), &[0, NEW, 18]),
        small("a new start gives no bytes back", &one(), &[10, NEW, 18]),
        small("a new start keeps no bytes", &one(), &[10, NEW, 8]),
        small("a new start in the middle", &cut, &[10, NEW, 18]),
        small("the block again from its start", &same, &[10, NEW, 18]),
        small(
            "a new start after a short finish",
            &cut,
            &[10, END, NEW, 18],
        ),
        small("a new start on a full block", &both, &[18, NEW, 18]),
        small("a new start after a finish", &both, &[18, END, NEW, 18]),
        small("a new start, then the block is full", &both, &[18, NEW, 19]),
        small(
            "a new start, a full block and a finish",
            &both,
            &[18, NEW, 18, END],
        ),
        small("two new starts", &three, &[18, END, NEW, 18, END, NEW, 18]),
        small(
            "two new starts, short",
            &three,
            &[18, END, NEW, 18, END, NEW, 17],
        ),
        small(
            "short after a block without a finish",
            &short,
            &[18, NEW, 18],
        ),
        small("a new start has its own block alone", &both, &[36, NEW, 18]),
    ]
}

/// The output after an accepted finish stays as it is until another one is accepted.
fn outputs() -> Vec<Case> {
    let both = [one(), other()].concat();
    let spare = [one(), block(&[0x39, 0x05], &[3, 6])].concat();
    let past = [one(), block(&[0x00, 0x00], &[8, 1])].concat();
    let spare_first = [block(&[0x39, 0x05], &[3, 6]), one()].concat();
    let bad = [other(), one()].concat();
    vec![
        small("accepted, then short", &both, &[18, END, NEW, 17]),
        small("accepted, then nothing", &one(), &[18, END, NEW]),
        small("accepted, then too much", &both, &[18, END, 1]),
        small("accepted, too much, a new start", &both, &[18, END, 1, NEW]),
        small("accepted, then a spare bit", &spare, &[18, END, NEW, 18]),
        small("accepted, then a bit past", &past, &[18, END, NEW, 18]),
        case(
            "accepted, then a bad counter",
            [2, 3, 2],
            &bad,
            &[18, END, NEW, 18],
        ),
        small(
            "a spare bit, then accepted",
            &spare_first,
            &[18, END, NEW, 18],
        ),
        small(
            "accepted, then another block",
            &both,
            &[18, END, NEW, 18, END],
        ),
        into(
            "accepted never, output of 3",
            [2, 3, 3],
            &both,
            &[18, END, NEW, 18],
            3,
        ),
    ]
}

/// All the transfers that are finished short, repeatedly or before a new start.
pub fn all() -> Vec<Case> {
    [short(), repeated(), new_starts(), outputs()].concat()
}
