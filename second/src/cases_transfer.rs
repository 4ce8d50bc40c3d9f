//! Transfers of sound blocks (document 02, A1): cut at every place, of every width of counters, the smallest and the
//! longest. They tell apart other orders of the bytes, and other lengths of a block.

use crate::cases_pointer::Case;
use crate::cases_transfer_order;
use crate::cases_transfer_over;
use crate::cases_transfer_short;
use crate::levels_case::{mixed, packed_at};
use crate::transfer_case::{block, case, one, small};

/// The block in two lumps, cut at every place: inside the counters, behind them, inside each word and between them.
fn two_lumps() -> Vec<Case> {
    (0..=18)
        .map(|place| {
            let name = format!("cut after {place}");
            small(&name, &one(), &[place, 18 - place])
        })
        .collect()
}

/// The block in other lumps, of no bytes too, and lumps that ask for more than is left.
fn other_lumps() -> Vec<Case> {
    vec![
        small("one lump", &one(), &[18]),
        small("single bytes", &one(), &[1; 18]),
        small("lumps of none around each byte", &one(), &[0, 1].repeat(18)),
        small("counters, then words", &one(), &[2, 8, 8]),
        small("lumps across every edge", &one(), &[1, 2, 6, 2, 7]),
        small("lumps of none at the start", &one(), &[0, 0, 0, 18]),
        small("lumps of none at the end", &one(), &[18, 0, 0, 0]),
        small("all that is left", &one(), &[253]),
        small("all that is left after some", &one(), &[17, 253]),
        small("one more than is left", &one(), &[10, 9]),
        small("nothing is left", &one(), &[18, 253, 1]),
        small("bytes that are not sent", &[one(), one()].concat(), &[18]),
    ]
}

/// Cases of document 01, whose cells and counters were stored there.
fn document_01() -> Vec<Case> {
    vec![
        case("G2", [1, 1, 1], &block(&[0x03], &[0]), &[4, 5]),
        case("G3", [2, 2, 3], &block(&[0x96], &[1, 3]), &[4, 13]),
        case(
            "G6",
            [3, 3, 3],
            &block(&[0x5e, 0x0b], &[1, 3, 7]),
            &[3, 20, 3],
        ),
    ]
}

/// Blocks that read otherwise if bytes, words, counters, or rows and columns were exchanged.
fn orders() -> Vec<Case> {
    // A row counter 1, and 1 for columns 0 to 7.
    let counters = [0xff, 0x01, 0, 0, 0, 0, 0, 0, 0];
    let eight_bytes = block(&counters, &[0x0807_0605_0403_0201]);
    let seven_bytes = block(&counters, &[0x0007_0605_0403_0201]);
    // Counters 1 2 3, 0 1: the bytes of 1 2, 3 0 1.
    let three_rows = block(&[0x39, 0x01], &[1, 2, 3]);
    let three_columns = block(&[0x39, 0x01], &[1, 2]);
    vec![
        case("lowest byte first", [1, 64, 1], &eight_bytes, &[17]),
        case("counters first", [1, 64, 1], &seven_bytes, &[17]),
        case("3 by 2", [3, 2, 3], &three_rows, &[26]),
        case("3 by 2, bytes of 2 by 3", [3, 2, 3], &three_columns, &[18]),
        case("2 by 3", [2, 3, 3], &three_columns, &[18]),
        case("2 by 3, bytes of 3 by 2", [2, 3, 3], &three_rows, &[26]),
        small("if words had 4 bytes", &one(), &[10]),
        // Rows 1 and columns 2 of counters 1, 1 0: the other way they would be 1 1, 0.
        case("1 by 2", [1, 2, 1], &block(&[0x03], &[0]), &[9]),
        case("2 by 1", [2, 1, 1], &block(&[0x03], &[0, 0]), &[17]),
    ]
}

/// Three rows and five columns at every K, and as many bytes as each width of counters asks for.
fn widths() -> Vec<Case> {
    let mut cases = Vec::new();
    for k in 1..=7 {
        for count in 25..=27 {
            let name = format!("3 by 5, K = {k}, {count} bytes");
            cases.push(case(&name, [3, 5, k], &[0; 27], &[count]));
        }
    }
    cases
}

/// Mixed counters at every K, which straddle bytes from K = 4 on, in lumps of three bytes.
fn mixed_counters() -> Vec<Case> {
    (1..=7)
        .map(|k| {
            let bytes = block(&packed_at(k, &mixed(k, 3, 5)), &[0, 0, 0]);
            case(
                &format!("mixed counters, K = {k}"),
                [3, 5, k],
                &bytes,
                &[3; 9],
            )
        })
        .collect()
}

/// The smallest and the longest blocks, one byte less and one more.
fn sizes() -> Vec<Case> {
    let ten = [&block(&[0x03], &[0])[..], &[0]].concat();
    let rows: Vec<u64> = (0..64).collect();
    // All counters 7, so that all cells are inverted, and a byte that belongs to no block.
    let long = [block(&[0xff; 48], &rows), vec![0]].concat();
    let narrow = block(&[0xff; 16], &rows);
    let middle = block(&[0xff; 32], &rows);
    let column = block(&packed_at(7, &[7; 65]), &[1; 64]);
    let row = block(&packed_at(7, &[7; 65]), &[5]);
    let all = [1; 560];
    vec![
        case("1 by 1, 9 bytes", [1, 1, 1], &ten, &[9]),
        case("1 by 1, 8 bytes", [1, 1, 1], &ten, &[8]),
        case("1 by 1, 10 bytes", [1, 1, 1], &ten, &[10]),
        case("1 by 1, K = 7", [1, 1, 7], &block(&[0x1f], &[0]), &[9]),
        case("64 by 64, 560 bytes", [64, 64, 7], &long, &[253, 253, 54]),
        case("64 by 64, 559 bytes", [64, 64, 7], &long, &[253, 253, 53]),
        case("64 by 64, 561 bytes", [64, 64, 7], &long, &[253, 253, 55]),
        case(
            "64 by 64, 560 and 1",
            [64, 64, 7],
            &long,
            &[253, 253, 54, 1],
        ),
        case("64 by 64, 560 single bytes", [64, 64, 7], &long, &all),
        case("64 by 64, 559 single bytes", [64, 64, 7], &long, &all[1..]),
        case(
            "64 by 64, K = 4, counters 7",
            [64, 64, 4],
            &long,
            &[253, 253, 54],
        ),
        case(
            "64 by 64, K = 3, 560 bytes",
            [64, 64, 3],
            &long,
            &[253, 253, 54],
        ),
        case(
            "64 by 64, K = 3, 544 bytes",
            [64, 64, 3],
            &middle,
            &[253, 253, 38],
        ),
        case(
            "64 by 64, K = 1, 528 bytes",
            [64, 64, 1],
            &narrow,
            &[253, 253, 22],
        ),
        case(
            "64 by 64, K = 1, 529 bytes",
            [64, 64, 1],
            &long,
            &[253, 253, 23],
        ),
        case(
            "64 by 1, K = 7, 537 bytes",
            [64, 1, 7],
            &column,
            &[253, 253, 31],
        ),
        case("1 by 64, K = 7, 33 bytes", [1, 64, 7], &row, &[33]),
        case(
            "1 by 64, K = 7, 537 bytes",
            [1, 64, 7],
            &column,
            &[253, 253, 31],
        ),
        case("64 by 1, K = 7, 33 bytes", [64, 1, 7], &row, &[33]),
    ]
}

/// The transfers of sound blocks, most of which are accepted.
pub fn sound() -> Vec<Case> {
    [
        two_lumps(),
        other_lumps(),
        document_01(),
        orders(),
        widths(),
        mixed_counters(),
        sizes(),
    ]
    .concat()
}

/// All the cases of A1.
pub fn all() -> Vec<Case> {
    [
        sound(),
        cases_transfer_short::all(),
        cases_transfer_over::all(),
        cases_transfer_order::all(),
    ]
    .concat()
}
