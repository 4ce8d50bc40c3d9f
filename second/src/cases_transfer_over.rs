//! Transfers with a lump that would exceed the block (document 02, A1). They tell apart a lump that is taken in part or
//! whose bytes come back, a refusal 9 that is forgotten too early, and one that outlives a new start.

use crate::cases_pointer::Case;
use crate::transfer_case::{block, case, into, one, other, small, END, NEW};

/// The block's bytes and some more of the same value.
fn and(byte: u8, count: usize) -> Vec<u8> {
    [one(), vec![byte; count]].concat()
}

/// Lumps that exceed the block by one or by many, at once or after some.
fn lumps() -> Vec<Case> {
    let two_blocks = [one(), other()].concat();
    vec![
        small("over by one", &and(0xff, 1), &[19]),
        small("over by a byte 0", &and(0, 1), &[19]),
        small("over by one, in a lump of its own", &and(0, 1), &[18, 1]),
        small("over by the last of single bytes", &and(0, 1), &[1; 19]),
        small("over by one, cut after the counters", &and(0, 1), &[2, 17]),
        small("over by one, cut before the end", &and(0, 1), &[17, 2]),
        small("over by many", &and(0xff, 235), &[253]),
        small(
            "over by many, in a lump of its own",
            &and(0xff, 235),
            &[18, 235],
        ),
        small("over by another block", &two_blocks, &[36]),
        small("another block, no new start", &two_blocks, &[18, 18]),
        small(
            "another block after a finish, no new start",
            &two_blocks,
            &[18, END, 18],
        ),
        small("asked for more, over by one", &and(0, 1), &[253]),
        small("asked for more, not over", &one(), &[17, 2]),
        small(
            "not over but for what is left",
            &one()[..17],
            &[16, 253, 253],
        ),
        small("over by many, 1,024 bytes", &and(0, 1006), &[253; 5]),
    ]
}

/// After such a lump every call is refused alike, whatever it would be without it.
fn kept() -> Vec<Case> {
    let last_again = [&one()[..17], &[9, 9], &one()[17..]].concat();
    let whole_again = [vec![9; 19], one()].concat();
    vec![
        small("over, then a lump of none", &and(0, 1), &[19, 0]),
        small("over, then a lump", &and(0, 3), &[19, 1]),
        small("over, then a finish", &and(0, 1), &[19, END]),
        small(
            "over on a full block, then finishes",
            &and(0, 1),
            &[18, 1, END, END],
        ),
        small(
            "over on a full block, then a lump of none",
            &and(0, 1),
            &[18, 1, 0, END],
        ),
        small("over, then a lump that would fit", &last_again, &[17, 2, 1]),
        small(
            "over, a finish, a lump that would fit",
            &last_again,
            &[17, 2, END, 1],
        ),
        small(
            "over, a lump of none, one that would fit",
            &last_again,
            &[17, 2, 0, 1, END],
        ),
        small("over, then a whole block", &whole_again, &[19, 18]),
        small(
            "over, a finish, a whole block, a finish",
            &whole_again,
            &[19, END, 18, END],
        ),
        small(
            "over, then all kinds of calls",
            &and(0, 9),
            &[19, END, 0, 1, END, 0, 1, 0, END],
        ),
        small("over twice", &and(0, 30), &[19, 19]),
        small("short finish, then over", &and(0, 1), &[17, END, 2]),
        small(
            "short finish, over, then a finish",
            &and(0, 1),
            &[17, END, 2, END],
        ),
        small("accepted, then over", &and(0, 1), &[18, END, 1]),
        small(
            "accepted, over, then a finish",
            &and(0, 1),
            &[18, END, 1, END],
        ),
        small("accepted twice, then over", &and(0, 1), &[18, END, END, 1]),
    ]
}

/// Only a new start helps, and no byte comes back with it.
fn new_starts() -> Vec<Case> {
    let long_first = [and(0, 1), other()].concat();
    let back = [&one()[..17], &[0, 0], &other()].concat();
    let back_alone = [&one()[..17], &other()].concat();
    let both_long = [long_first.clone(), vec![0]].concat();
    let in_lumps = [and(0, 3), other()].concat();
    vec![
        small("over, then a new start", &and(0, 1), &[19, NEW]),
        small("over, a new start, a finish", &and(0, 1), &[19, NEW, END]),
        small(
            "over, a new start, a lump of none",
            &and(0, 1),
            &[19, NEW, 0],
        ),
        small("over, a new start, a block", &long_first, &[19, NEW, 18]),
        small(
            "over, a finish, a new start, a block",
            &long_first,
            &[19, END, NEW, 18],
        ),
        small(
            "over on a full block, a new start, a block",
            &long_first,
            &[18, 1, NEW, 18],
        ),
        small(
            "a refused lump gives nothing back",
            &back,
            &[17, 2, NEW, 18],
        ),
        small(
            "a refused lump is not taken up to the end",
            &back_alone,
            &[17, 2, NEW, 18],
        ),
        small(
            "lumps after it are used up too",
            &in_lumps,
            &[19, 1, 1, NEW, 18],
        ),
        small("over, a new start, short", &long_first, &[19, NEW, 17]),
        small("over, a new start, over", &both_long, &[19, NEW, 19]),
        small(
            "over, a new start, over, a finish",
            &both_long,
            &[19, NEW, 19, END],
        ),
        small(
            "over, two new starts, a block",
            &long_first,
            &[19, NEW, NEW, 18],
        ),
        small(
            "accepted, over, a new start, a block",
            &long_first,
            &[18, END, 1, NEW, 18],
        ),
        small(
            "accepted, over, a new start, short",
            &long_first,
            &[18, END, 1, NEW, 17],
        ),
    ]
}

/// A lump that exceeds the block goes before everything that the block or the output would give.
fn before_others() -> Vec<Case> {
    let spare = [block(&[0x39, 0x05], &[3, 6]), vec![0]].concat();
    let past = [block(&[0x39, 0x01], &[11, 6]), vec![0]].concat();
    let all = [block(&[0x3d, 0x05], &[11, 14]), vec![0]].concat();
    vec![
        small("over and a spare bit", &spare, &[18, 1]),
        small("over and a bit past", &past, &[18, 1]),
        case("over and a bad counter", [2, 3, 2], &and(0, 1), &[18, 1]),
        case("over and all of them", [2, 3, 2], &all, &[18, 1]),
        into("over and no output", [2, 3, 3], &and(0, 1), &[18, 1], 0),
        into(
            "over and an output of 1",
            [2, 3, 3],
            &and(0, 1),
            &[18, 1],
            1,
        ),
        into(
            "over and an output of 3",
            [2, 3, 3],
            &and(0, 1),
            &[18, 1],
            3,
        ),
        into(
            "over, all of them, an output of 3",
            [2, 3, 2],
            &all,
            &[18, 1],
            3,
        ),
        into(
            "over at the start, an output of 3",
            [2, 3, 3],
            &and(0, 1),
            &[19],
            3,
        ),
        case(
            "a bad counter, then over",
            [2, 3, 2],
            &and(0, 1),
            &[18, END, 1],
        ),
        small("a spare bit, then over", &spare, &[18, END, 1]),
    ]
}

/// All the transfers with a lump that exceeds the block.
pub fn all() -> Vec<Case> {
    [lumps(), kept(), new_starts(), before_others()].concat()
}
