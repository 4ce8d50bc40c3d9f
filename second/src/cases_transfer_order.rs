//! Transfers with numbers out of range, outputs of another length, and whole blocks that a read refuses (document 02,
//! A1 and A4). They tell apart which refusal goes first, and which counter is named.

use crate::cases_pointer::Case;
use crate::levels_case::packed_at;
use crate::transfer_case::{block, case, into, one, other, small, END, NEW};

/// Every call is refused with 1, a new start too, since it has the same numbers.
fn bad_numbers() -> Vec<Case> {
    let wide = 1 << 32;
    let numbers = [
        ("no rows", [0, 3, 3]),
        ("65 rows", [65, 3, 3]),
        ("2 rows and 2^32", [wide + 2, 3, 3]),
        // Eight bytes a row would then be 0 bytes, and with the counters of 3 columns 2.
        ("2^61 rows", [1 << 61, 3, 3]),
        ("most rows", [u64::MAX, 3, 3]),
        ("no columns", [2, 0, 3]),
        ("65 columns", [2, 65, 3]),
        ("3 columns and 256", [2, 259, 3]),
        ("most columns", [2, u64::MAX, 3]),
        ("K = 0", [2, 3, 0]),
        ("K = 8", [2, 3, 8]),
        ("K = 3 and 2^63", [2, 3, (1 << 63) + 3]),
        ("most K", [2, 3, u64::MAX]),
        ("none in range", [0, 65, 8]),
    ];
    let script = [18, END, 0, NEW, END, 18];
    let bytes = [one(), other()].concat();
    let mut cases: Vec<Case> = numbers
        .iter()
        .map(|(name, numbers)| into(name, *numbers, &bytes, &script, 2))
        .collect();
    cases.extend([
        into("no rows and nothing else", [0, 3, 3], &[], &[], 0),
        into("no rows, no output", [0, 3, 3], &[0, 0], &[2], 0),
        into(
            "65 rows, their output",
            [65, 3, 3],
            &[0; 537],
            &[253, 253, 31],
            65,
        ),
        into("K = 8, an output of 3", [2, 3, 8], &one(), &[18], 3),
        into("K = 8, too many bytes", [2, 3, 8], &[0; 1024], &[253; 5], 2),
        into("K = 8, four bits a counter", [2, 3, 8], &[0; 19], &[19], 2),
        into("K = 8, short", [2, 3, 8], &one(), &[17], 2),
        into("K = 8, no script", [2, 3, 8], &one(), &[], 2),
        into(
            "K = 8, too many bytes, no output",
            [2, 3, 8],
            &[255; 40],
            &[40],
            0,
        ),
        into(
            "K = 8, new starts",
            [2, 3, 8],
            &one(),
            &[NEW, NEW, 18, NEW],
            2,
        ),
    ]);
    cases
}

/// Outputs of another length, with blocks that are whole, short, or refused by a read.
fn outputs() -> Vec<Case> {
    let small = [2, 3, 3];
    let spare = block(&[0x39, 0x05], &[3, 6]);
    let past = block(&[0x39, 0x01], &[11, 6]);
    let twice = [one(), other()].concat();
    vec![
        into("no output", small, &one(), &[18], 0),
        into("an output of 1", small, &one(), &[18], 1),
        into("an output of 2", small, &one(), &[18], 2),
        into("an output of 3, a word a column", small, &one(), &[18], 3),
        into("an output of 1,024", small, &one(), &[18], 1024),
        into("an output of 65", [64, 64, 7], &[0; 560], &[253; 3], 65),
        into("an output of 63", [64, 64, 7], &[0; 560], &[253; 3], 63),
        into("short, an output of 1", small, &one(), &[17], 1),
        into("short, an output of 3", small, &one(), &[17], 3),
        into("nothing sent, no output", small, &[], &[], 0),
        into("a spare bit, an output of 3", small, &spare, &[18], 3),
        into("a bit past, an output of 1", small, &past, &[18], 1),
        into("a bad counter, an output of 3", [2, 3, 2], &one(), &[18], 3),
        into(
            "an output of 3, finished again",
            small,
            &one(),
            &[17, END, 1, END],
            3,
        ),
        into("an output of 3, then over", small, &twice, &[18, END, 1], 3),
        into(
            "an output of 3, over, finished",
            small,
            &twice,
            &[18, END, 1, END],
            3,
        ),
        into(
            "an output of 3, over, a new start",
            small,
            &twice,
            &[19, END, NEW, END, 17],
            3,
        ),
    ]
}

/// Whole blocks that a read refuses, in lumps.
fn refused_reads() -> Vec<Case> {
    let past = |words: [u64; 2]| block(&[0x39, 0x01], &words);
    let at_2 = |counters: &[u8]| block(&packed_at(2, counters), &[3, 6]);
    let at_4 = |counters: &[u8]| block(&packed_at(4, counters), &[3, 6]);
    let k_2 = |name: &str, counters: &[u8]| case(name, [2, 3, 2], &at_2(counters), &[5, 13]);
    let k_4 = |name: &str, counters: &[u8]| case(name, [2, 3, 4], &at_4(counters), &[1, 17]);
    let mut last = [0; 128];
    last[127] = 5;
    let mut column = last;
    column[64] = 6;
    let long = |counters: &[u8]| block(&packed_at(4, counters), &[0; 64]);
    let by = [253, 253, 54];
    let mended = [at_2(&[0, 3, 0, 0, 0]), at_2(&[0, 0, 0, 0, 0])].concat();
    let worse = [at_2(&[0, 3, 0, 0, 0]), at_2(&[0, 0, 0, 0, 3])].concat();
    vec![
        small("the first spare bit", &block(&[0x39, 0x05], &[3, 6]), &[18]),
        small(
            "the last spare bit",
            &block(&[0x39, 0x81], &[3, 6]),
            &[1; 18],
        ),
        small("column 3 of row 0", &past([11, 6]), &[2, 8, 8]),
        small("column 3 of row 1", &past([3, 14]), &[2, 8, 8]),
        small("column 63 of row 0", &past([3 + (1 << 63), 6]), &[9, 9]),
        small("column 63 of row 1", &past([3, 6 + (1 << 63)]), &[17, 1]),
        k_2("bad counter, row 0", &[3, 0, 0, 0, 0]),
        k_2("bad counter, row 1", &[2, 3, 0, 0, 0]),
        k_2("bad counter, column 0", &[2, 2, 3, 0, 0]),
        k_2("bad counter, column 1", &[0, 0, 2, 3, 0]),
        k_2("bad counter, column 2", &[0, 0, 0, 0, 3]),
        k_2("bad counters, row 1 and column 1", &[0, 3, 0, 3, 0]),
        k_2("bad counters, all", &[3, 3, 3, 3, 3]),
        k_2("counters at K", &[2, 2, 2, 2, 2]),
        k_4("K = 4, bad counter across two bytes", &[0, 0, 5, 0, 0]),
        k_4("K = 4, the greatest is not the first", &[0, 5, 0, 7, 0]),
        k_4("K = 4, counters at K", &[4, 4, 4, 4, 4]),
        case("64 by 64, last counter bad", [64, 64, 4], &long(&last), &by),
        case(
            "64 by 64, first column's bad",
            [64, 64, 4],
            &long(&column),
            &by,
        ),
        case(
            "a bad counter and a spare bit",
            [2, 3, 2],
            &block(&[0x39, 0x05], &[3, 6]),
            &[18],
        ),
        case(
            "a bad counter and a bit past",
            [2, 3, 2],
            &past([3, 14]),
            &[18],
        ),
        case(
            "a bad counter, finished again",
            [2, 3, 2],
            &one(),
            &[18, END, 0, END],
        ),
        case(
            "a bad counter, nothing after it",
            [2, 3, 2],
            &one(),
            &[18, END, NEW],
        ),
        case(
            "a bad counter, a new start, a good block",
            [2, 3, 2],
            &mended,
            &[18, END, NEW, 18],
        ),
        case(
            "a bad counter, a new start, another",
            [2, 3, 2],
            &worse,
            &[18, END, NEW, 18],
        ),
        small(
            "a spare bit, finished again",
            &block(&[0x39, 0x05], &[3, 6]),
            &[18, END, END],
        ),
    ]
}

/// Scripts as long as they may be.
fn long_scripts() -> Vec<Case> {
    let finished = [vec![18], vec![END; 1023]].concat();
    vec![
        small("1,024 finishes", &one(), &[END; 1024]),
        small("1,023 finishes of a whole block", &one(), &finished),
        small("1,024 lumps of none", &one(), &[0; 1024]),
        small("1,024 new starts", &one(), &[NEW; 1024]),
        small("1,024 single bytes", &[0; 1024], &[1; 1024]),
        into(
            "1,024 of everything",
            [64, 64, 7],
            &[0; 1024],
            &[1; 1024],
            1024,
        ),
        into(
            "1,024 of everything, K = 8",
            [64, 64, 8],
            &[0; 1024],
            &[1; 1024],
            1024,
        ),
    ]
}

/// All the transfers of bad numbers, other outputs and refused reads, and the longest scripts.
pub fn all() -> Vec<Case> {
    [bad_numbers(), outputs(), refused_reads(), long_scripts()].concat()
}
