//! The cases of document 01 through the wrapper.
use ernavluq::*;

/// A row of zeros with cells stuck at 1: the answer, and the metadata afterwards. A refusal leaves cells and metadata, and a read gives the data.
fn write_row(
    n: usize,
    stuck_at_1: &[usize],
    before: &[u8],
) -> (Result<PointerWriteAnswer, Refusal>, Vec<u8>) {
    let (data, mut mask, mut cells, mut metadata) = ([0; 64], [0; 64], [0xA5; 64], before.to_vec());
    for p in stuck_at_1 {
        mask[p / 8] |= 1 << (p % 8);
    }
    let values = mask;
    let answer = pointer_write(n, &data, &mask, &values, &mut cells, &mut metadata);
    if answer.is_ok() {
        let mut out = [0xFF; 64];
        assert_eq!(cells, values);
        assert_eq!(
            pointer_read(n, &cells, &metadata, &mut out),
            Ok(PointerReadAnswer { number: 0 })
        );
        assert_eq!(out, data);
    } else {
        assert_eq!((cells, &metadata[..]), ([0xA5; 64], before));
    }
    (answer, metadata)
}

fn row(
    active: usize,
    new: usize,
    metadata: &[u8],
) -> (Result<PointerWriteAnswer, Refusal>, Vec<u8>) {
    (
        Ok(PointerWriteAnswer {
            number: 0,
            active,
            new_entries: new,
        }),
        metadata.to_vec(),
    )
}

fn no_row(number: usize, metadata: &[u8]) -> (Result<PointerWriteAnswer, Refusal>, Vec<u8>) {
    let answer = Answer::PointerWrite(PointerWriteAnswer {
        number,
        active: 0,
        new_entries: 0,
    });
    (Err(Refusal { answer }), metadata.to_vec())
}

#[test]
fn p1_reads_the_replacement() {
    let mut out = [0xFF; 64];
    pointer_read(2, &[0; 64], &[0x0A, 0x0C, 0x00], &mut out).unwrap();
    assert_eq!((out[0], &out[1..]), (1 << 5, &[0; 63][..]));
}

#[test]
fn p2_to_p6() {
    assert_eq!(write_row(1, &[511], &[0; 2]), row(1, 1, &[0xFF, 0x03]));
    assert_eq!(
        write_row(1, &[511], &[0xFF, 0x03]),
        row(1, 0, &[0xFF, 0x03])
    );
    assert_eq!(
        write_row(1, &[3], &[0xFF, 0x03]),
        no_row(NO_ENTRY_LEFT, &[0xFF, 0x03])
    );
    assert_eq!(
        write_row(2, &[3, 300], &[0; 3]),
        row(2, 2, &[0x07, 0x60, 0x09])
    );
    assert_eq!(
        write_row(2, &[3, 300, 301], &[0; 3]),
        no_row(NO_ENTRY_LEFT, &[0; 3])
    );
    assert_eq!(
        write_row(3, &[], &[0, 0, 0x40, 0]),
        no_row(MALFORMED, &[0, 0, 0x40, 0])
    );
    assert_eq!(
        write_row(2, &[], &[1, 0, 0]),
        no_row(SAME_POINTER, &[1, 0, 0])
    );
    assert_eq!(
        write_row(2, &[], &[0, 0, 0x20]),
        no_row(BIT_PAST_END, &[0, 0, 0x20])
    );
}

#[test]
fn p7_numbers_and_lengths() {
    for (n, accepted) in [
        (0, false),
        (1, true),
        (10, true),
        (11, false),
        (usize::MAX, false),
    ] {
        let metadata = vec![0; metadata_bytes(n.min(11))];
        let want = if accepted {
            row(0, 0, &metadata)
        } else {
            no_row(OUT_OF_RANGE, &metadata)
        };
        assert_eq!(write_row(n, &[], &metadata), want);
    }
    for bytes in [0, 63, 64, 65] {
        let (mut cells, mut metadata) = ([0; 64], [0; 8]);
        let answer = pointer_write(
            6,
            &vec![0; bytes],
            &[0; 64],
            &[0; 64],
            &mut cells,
            &mut metadata,
        );
        assert_eq!(
            answer.map_err(|refusal| refusal.number()).err(),
            (bytes != 64).then_some(WRONG_LENGTH)
        );
    }
}

/// A square block of zeros, planned and stored: the answer of both, the counters and the cells afterwards. A refusal leaves both, and a read gives the data.
fn write_block(
    k: usize,
    mask: &[u64],
    values: &[u64],
) -> (Result<GridAnswer, Refusal>, Vec<u8>, Vec<u64>) {
    let n = mask.len();
    let (data, mut cells, mut counters) =
        (vec![0; n], vec![9; n], vec![0xA5; counter_bytes(n, n, k)]);
    let answer = grid_plan(n, n, k, &data, mask, values, &mut counters);
    if answer.is_ok() {
        let mut out = vec![9; n];
        assert_eq!(
            grid_store(n, n, k, &data, mask, values, &counters, &mut cells),
            answer
        );
        assert_eq!(
            grid_read(n, n, k, &cells, &counters, &mut out),
            Ok(GridReadAnswer {
                number: 0,
                index: 0
            })
        );
        assert_eq!(out, data);
    } else {
        assert_eq!(counters, vec![0xA5; counter_bytes(n, n, k)]);
    }
    (answer, counters, cells)
}

/// An accepted plan or store: L, the wrong stuck cells and the right ones.
fn accepted(levels: usize, wrong: usize, right: usize) -> GridAnswer {
    GridAnswer {
        number: 0,
        levels,
        faults: wrong + right,
        wrong,
        right,
        index: 0,
    }
}

/// A refused one counts nothing.
fn refused(number: usize) -> GridAnswer {
    GridAnswer {
        number,
        levels: 0,
        faults: 0,
        wrong: 0,
        right: 0,
        index: 0,
    }
}

fn block(
    levels: usize,
    wrong: usize,
    right: usize,
    counters: &[u8],
    cells: &[u64],
) -> (Result<GridAnswer, Refusal>, Vec<u8>, Vec<u64>) {
    (
        Ok(accepted(levels, wrong, right)),
        counters.to_vec(),
        cells.to_vec(),
    )
}

fn block_number(k: usize, mask: &[u64], values: &[u64]) -> usize {
    let refusal = write_block(k, mask, values).0.unwrap_err();
    assert_eq!(refusal.answer, Answer::GridPlan(refused(refusal.number())));
    refusal.number()
}

#[test]
fn g3_to_g9() {
    assert_eq!(
        write_block(3, &[3, 2], &[1, 2]),
        block(2, 2, 1, &[0x96], &[1, 3])
    );
    assert_eq!(block_number(1, &[3, 2], &[1, 2]), UNMASKABLE);
    for k in 1..=7 {
        assert_eq!(block_number(k, &[3, 3], &[1, 2]), UNMASKABLE);
    }
    assert_eq!(
        write_block(3, &[3, 6, 4], &[1, 2, 4]),
        block(3, 3, 2, &[0x5E, 0x0B], &[1, 3, 7])
    );
    assert_eq!(block_number(2, &[3, 6, 4], &[1, 2, 4]), UNMASKABLE);
    assert_eq!(block_number(3, &[3, 6, 12, 8], &[1, 2, 4, 8]), UNMASKABLE);
    assert_eq!(
        write_block(1, &[3, 2], &[2, 0]),
        block(1, 1, 2, &[0x09], &[2, 0])
    );
    assert_eq!(block_number(0, &[0], &[0]), OUT_OF_RANGE);
    assert_eq!(block_number(8, &[0], &[0]), OUT_OF_RANGE);
    assert_eq!(block_number(1, &[2], &[0]), BIT_PAST_END);
    assert_eq!(block_number(1, &[0; 65], &[0; 65]), OUT_OF_RANGE);
    assert_eq!(
        write_block(1, &[0; 64], &[0; 64]),
        block(0, 0, 0, &[0; 16], &[0; 64])
    );
}

#[test]
fn g1_g2_and_g10() {
    let (mut cells, mut counters, mut out) = ([9; 2], [0xA5], [9]);
    let planned = grid_plan(2, 2, 1, &[1, 2], &[0; 2], &[0; 2], &mut counters);
    assert_eq!((planned, counters), (Ok(accepted(0, 0, 0)), [0]));
    let stored = grid_store(2, 2, 1, &[1, 2], &[0; 2], &[0; 2], &counters, &mut cells);
    assert_eq!((stored, cells), (planned, [1, 2]));
    let planned = grid_plan(1, 1, 1, &[1], &[1], &[0], &mut counters);
    assert_eq!((planned, counters), (Ok(accepted(1, 1, 0)), [3]));
    let stored = grid_store(1, 1, 1, &[1], &[1], &[0], &counters, &mut cells[..1]);
    assert_eq!((stored, cells[0]), (planned, 0));
    assert_eq!(
        grid_read(1, 1, 2, &[0], &[3], &mut out)
            .unwrap_err()
            .number(),
        MALFORMED
    );
    assert_eq!(out, [9]);
    assert_eq!(
        (grid_read(1, 1, 3, &[0], &[0x0F], &mut out).is_ok(), out),
        (true, [1])
    );
}

/// Block G3 with K = 3 by counters that no plan made: the answer, and the cells afterwards.
fn store_g3(counters: &[u8], words: usize) -> (Result<GridAnswer, Refusal>, Vec<u64>) {
    let mut cells = vec![9; words];
    let stored = grid_store(2, 2, 3, &[0; 2], &[3, 2], &[1, 2], counters, &mut cells);
    (stored, cells)
}

#[test]
fn other_counters() {
    // Rows 3 and 1, columns 3 and 2: they mask the faults too.
    assert_eq!(store_g3(&[0xB7], 2), (Ok(accepted(3, 2, 1)), vec![1, 3]));
    for (counters, words, number) in [
        (&[0][..], 2, MISREAD),
        (&[0x92], 2, MISREAD),
        (&[0x96], 1, WRONG_LENGTH),
        (&[0x96, 0], 2, WRONG_LENGTH),
    ] {
        let refused = Answer::GridStore(refused(number));
        assert_eq!(
            store_g3(counters, words),
            (Err(Refusal { answer: refused }), vec![9; words])
        );
    }
    let mut cells = [9];
    let refusal = grid_store(1, 1, 2, &[0], &[0], &[0], &[0x10], &mut cells).unwrap_err();
    assert_eq!((refusal.number(), cells), (BIT_PAST_END, [9]));
}

/// A read and a store at K = 2 by these counters: what a refusal of both says of the bad one.
fn named(rows: usize, columns: usize, counters: &[u8]) -> (usize, Option<usize>) {
    let (zeros, mut out, mut cells) = (vec![0; rows], vec![9; rows], vec![9; rows]);
    let read = grid_read(rows, columns, 2, &zeros, counters, &mut out).unwrap_err();
    let stored = grid_store(
        rows, columns, 2, &zeros, &zeros, &zeros, counters, &mut cells,
    )
    .unwrap_err();
    assert_eq!((out, cells), (vec![9; rows], vec![9; rows]));
    assert_eq!(
        (read.number(), read.bad_counter(), read.to_string()),
        (stored.number(), stored.bad_counter(), stored.to_string())
    );
    let Answer::GridStore(answer) = stored.answer else {
        panic!("a store answers as a store");
    };
    let index = stored.bad_counter().unwrap_or(0);
    let number = stored.number();
    assert_eq!(
        answer,
        GridAnswer {
            index,
            ..refused(number)
        }
    );
    (number, stored.bad_counter())
}

#[test]
fn g10_says_which_counter() {
    assert_eq!(named(2, 2, &[0x57]), (MALFORMED, Some(0)));
    assert_eq!(named(2, 2, &[0xC0]), (MALFORMED, Some(3)));
    // Column 0 of three after two rows, row 2 of three, and row 1 though a column is bad too.
    assert_eq!(named(2, 3, &[0x30, 0]), (MALFORMED, Some(2)));
    assert_eq!(named(3, 2, &[0x30, 0]), (MALFORMED, Some(2)));
    assert_eq!(named(2, 3, &[0x0C, 3]), (MALFORMED, Some(1)));
    // A spare bit goes first, and names none.
    assert_eq!(named(2, 3, &[0x0C, 4]), (BIT_PAST_END, None));
    let mut last = [0; 32];
    last[31] = 0xC0;
    assert_eq!(named(64, 64, &last), (MALFORMED, Some(127)));
}

#[test]
fn a_refusal_speaks() {
    let refusal: Box<dyn std::error::Error> =
        Box::new(grid_read(0, 1, 1, &[], &[], &mut []).unwrap_err());
    assert_eq!(
        refusal.to_string(),
        "refusal 1: n, the rows, the columns, K or the target is out of its range"
    );
    for number in (1..=9).chain([13]) {
        let told = Refusal {
            answer: Answer::GridRead(GridReadAnswer { number, index: 0 }),
        }
        .to_string();
        assert!(
            told.starts_with(&format!("refusal {number}: "))
                && !told.ends_with("no number that a call answers"),
            "{told}"
        );
    }
}

/// The staircase of seven steps, all data 0: cell (i, i) is stuck at 1 and the one to its right at 0.
const STAIRS: ([u64; 7], [u64; 7]) = ([3, 6, 12, 24, 48, 96, 64], [1, 2, 4, 8, 16, 32, 64]);

#[test]
fn seven_levels() {
    let (mask, values) = STAIRS;
    let (mut counters, mut cells, mut out) = ([9; 6], [9; 7], [9; 7]);
    assert_eq!(counter_bytes(7, 7, 7), counters.len());
    assert_eq!((MAX_COUNTER_BYTES, counter_bytes(64, 64, 4)), (48, 48));
    let refusal = grid_plan(7, 7, 6, &[0; 7], &mask, &values, &mut counters).unwrap_err();
    assert_eq!((refusal.number(), counters), (UNMASKABLE, [9; 6]));
    let planned = grid_plan(7, 7, 7, &[0; 7], &mask, &values, &mut counters);
    assert_eq!(planned, Ok(accepted(7, 7, 6)));
    assert_eq!(counters, [0xA2, 0xDF, 0x25, 0xEB, 0x4D, 0x01]);
    let stored = grid_store(7, 7, 7, &[0; 7], &mask, &values, &counters, &mut cells);
    assert_eq!((stored, cells), (planned, [1, 3, 7, 15, 31, 63, 127]));
    assert!(grid_read(7, 7, 7, &cells, &counters, &mut out).is_ok());
    assert_eq!(out, [0; 7]);
    // Row 3 is the first that has a 7.
    let refusal = grid_read(7, 7, 6, &cells, &counters, &mut out).unwrap_err();
    assert_eq!(refusal.bad_counter(), Some(3));
}

#[test]
fn conversions() {
    let mut out = [9, 9];
    assert!(grid_convert(2, 3, 3, 4, &[0xE4, 0x01], &mut out).is_ok());
    assert_eq!(out, [0x88, 0x16]);
    for (k, to, counters, number, index) in [
        (4, 3, [0, 0], OUT_OF_RANGE, None),
        (3, 8, [0, 0], OUT_OF_RANGE, None),
        (3, 4, [0xE4, 0x05], BIT_PAST_END, None),
        (2, 4, [0x30, 0x00], MALFORMED, Some(2)),
        (4, 7, [0x28, 0x0E], MALFORMED, Some(1)),
    ] {
        let refusal = grid_convert(2, 3, k, to, &counters, &mut out).unwrap_err();
        assert_eq!((refusal.number(), refusal.bad_counter()), (number, index));
        assert_eq!(out, [0x88, 0x16]);
    }
    let refusal = grid_convert(2, 2, 3, 4, &[0x96], &mut out[..1]).unwrap_err();
    assert_eq!(refusal.number(), WRONG_LENGTH);
}
