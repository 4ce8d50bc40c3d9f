//! Any bits may be passed to the archive as a transfer, even if no call made them: its start, lump and finish against a few
//! plain lines.

use std::mem::MaybeUninit;

use bench::answers::GridReadAnswer;
use bench::archive_transfer::{finish, lump, missing, start};
use bench::archive_transfer::{Transfer, TransferMissingAnswer, MAX_BLOCK_BYTES};
use bench::contestant::Second;
use bench::input::Input;
use second::call::GridRead;
use second::random::Random;

/// So many records are tried.
const RECORDS: usize = 200_000;

/// What `taken` is after a lump that exceeds its block: more than any block has.
const OVER: usize = MAX_BLOCK_BYTES + 1;

/// The bytes of the counters and of the whole block, if the numbers are in their ranges.
fn lengths(numbers: [usize; 3]) -> Option<[usize; 2]> {
    let [rows, columns, k] = numbers;
    let in_range = (1..=64).contains(&rows) && (1..=64).contains(&columns) && (1..=7).contains(&k);
    in_range.then(|| {
        let width = [1, 2, 2, 3, 3, 3, 3][k - 1];
        let counters = ((rows + columns) * width).div_ceil(8);
        [counters, counters + 8 * rows]
    })
}

/// The numbers of a record.
fn numbers_of(record: &Transfer) -> [usize; 3] {
    [record.rows, record.columns, record.k]
}

/// What a lump has to answer and to leave; past the bytes that are taken a record is unchanged.
fn expected_lump(record: &Transfer, bytes: &[u8]) -> (usize, Transfer) {
    let mut transfer = record.clone();
    let number = match lengths(numbers_of(record)) {
        None => 1,
        Some([_, block]) if record.taken > block => 9,
        Some([_, block]) if bytes.len() > block - record.taken => {
            transfer.taken = OVER;
            9
        }
        Some(_) => {
            let end = record.taken + bytes.len();
            transfer.bytes[record.taken..end].copy_from_slice(bytes);
            transfer.taken = end;
            0
        }
    };
    (number, transfer)
}

/// What a transfer has to say of missing bytes: the number of a lump of no bytes, and if it is 0 how many.
fn expected_missing(record: &Transfer) -> TransferMissingAnswer {
    let number = expected_lump(record, &[]).0;
    let bytes = match lengths(numbers_of(record)) {
        Some([_, block]) if number == 0 => block - record.taken,
        _ => 0,
    };
    TransferMissingAnswer { number, bytes }
}

/// What a finish has to answer; the second program reads the block.
fn expected_finish(record: &Transfer, out: &mut Vec<u64>) -> GridReadAnswer {
    let refused = |number| GridReadAnswer { number, index: 0 };
    let Some([counters, block]) = lengths(numbers_of(record)) else {
        return refused(1);
    };
    if record.taken > block {
        return refused(9);
    }
    if out.len() != record.rows {
        return refused(2);
    }
    if record.taken < block {
        return refused(8);
    }
    let words = record.bytes[counters..block].chunks_exact(8);
    let mut read = GridRead {
        numbers: numbers_of(record).map(|number| number as u64),
        cells: words
            .map(|word| u64::from_le_bytes(word.try_into().unwrap()))
            .collect(),
        counters: record.bytes[..counters].to_vec(),
        output: std::mem::take(out),
    };
    let answer = read.made_by::<Second>();
    *out = read.output;
    answer
}

/// A number up to the greatest, or now and then one that is out of range.
fn some_number(random: &mut Random, most: usize) -> usize {
    match random.below(40) {
        0 => 0,
        1 => most + 1,
        2 => usize::MAX,
        3 => random.word() as usize,
        4 => 1 << 32 | random.between(1, most),
        _ => random.between(1, most),
    }
}

/// Gives a record counters and cells without a bit out of place: counters of any bits, which may be above K, or of 0. Now
/// and then one bit of the counters is turned over.
fn put_block(random: &mut Random, record: &mut Transfer, [counters, block]: [usize; 2]) {
    let (packed, words) = record.bytes[..block].split_at_mut(counters);
    for word in words.chunks_exact_mut(8) {
        let line = random.word() >> (64 - record.columns);
        word.copy_from_slice(&line.to_le_bytes());
    }
    if random.bit() {
        let width = [1, 2, 2, 3, 3, 3, 3][record.k - 1];
        let spare = 8 * counters - width * (record.rows + record.columns);
        packed[counters - 1] &= 0xff >> spare;
    } else {
        packed.fill(0);
    }
    if random.percent(20) {
        packed[random.below(counters)] ^= 1 << random.below(8);
    }
}

/// A record of any numbers and any bytes; its block is often such that a read accepts it.
fn some_record(random: &mut Random) -> Transfer {
    let mut record = Transfer {
        rows: some_number(random, 64),
        columns: some_number(random, 64),
        k: some_number(random, 7),
        taken: 0,
        bytes: [0; MAX_BLOCK_BYTES],
    };
    record.bytes.fill_with(|| random.byte());
    let lengths = lengths(numbers_of(&record));
    if let Some(lengths) = lengths {
        if random.percent(60) {
            put_block(random, &mut record, lengths);
        }
    }
    let block = lengths.map_or(MAX_BLOCK_BYTES, |[_, block]| block);
    record.taken = match random.below(20) {
        0 => usize::MAX,
        1 => usize::MAX - random.below(600),
        2 => random.word() as usize,
        3 => block + 1,
        4 => random.pick(&[559, 560, 561, 562, 592, 600]),
        5 => block - 1,
        6 => 1 << 32 | random.below(block),
        7 => random.between(0, 700),
        8..=12 => random.between(0, block),
        _ => block,
    };
    record
}

/// The length of a lump: about what is missing, or any.
fn some_length(random: &mut Random, record: &Transfer) -> usize {
    let block = lengths(numbers_of(record)).map_or(MAX_BLOCK_BYTES, |[_, block]| block);
    let missing = block.saturating_sub(record.taken);
    match random.below(8) {
        0 => 0,
        1 => missing,
        2 => missing + 1,
        3 => random.between(0, missing),
        4 => MAX_BLOCK_BYTES,
        5 => random.below(2000),
        _ => random.below(20),
    }
}

/// A record with other bytes past those that are taken.
fn changed_past_taken(random: &mut Random, record: &Transfer) -> Transfer {
    let mut changed = record.clone();
    for byte in changed.bytes.iter_mut().skip(record.taken) {
        *byte ^= random.byte();
    }
    changed
}

#[test]
fn a_start_keeps_its_numbers_and_has_taken_nothing() {
    let random = &mut Random::new(1);
    for _ in 0..20_000 {
        let numbers = [64, 64, 7].map(|most| some_number(random, most));
        let [rows, columns, k] = numbers;
        let new = Transfer {
            rows,
            columns,
            k,
            taken: 0,
            bytes: [0; MAX_BLOCK_BYTES],
        };
        // Whatever the record was before.
        let mut record = MaybeUninit::new(some_record(random));
        let number = start(&mut record, numbers);
        assert_eq!(number, usize::from(lengths(numbers).is_none()));
        // SAFETY: it was a record before.
        assert_eq!(unsafe { record.assume_init() }, new);
    }
}

#[test]
fn a_lump_answers_on_any_record() {
    let random = &mut Random::new(2);
    // Refused for the numbers, for what is taken and for what would be, and accepted with bytes and without.
    let mut seen = [0; 5];
    for _ in 0..RECORDS {
        let record = some_record(random);
        let length = some_length(random, &record);
        let bytes = random.bytes(length);
        let (number, expected) = expected_lump(&record, &bytes);
        let mut after = record.clone();
        assert_eq!(lump(&mut after, &bytes), number);
        assert_eq!(after, expected, "{record:?} and {length} bytes");
        assert_eq!(missing(&after), expected_missing(&expected), "{after:?}");
        seen[match number {
            1 => 0,
            9 if expected == record => 1,
            9 => 2,
            _ => 3 + usize::from(bytes.is_empty()),
        }] += 1;
    }
    assert!(seen.iter().all(|times| *times > RECORDS / 100), "{seen:?}");
}

#[test]
fn a_finish_answers_on_any_record_and_by_the_taken_bytes_alone() {
    let random = &mut Random::new(3);
    let mut seen = [0; 10];
    for _ in 0..RECORDS {
        let record = some_record(random);
        let words = match random.below(10) {
            0 => random.below(66),
            _ => record.rows.min(64),
        };
        let before = random.words(words);
        let (mut out, mut other_out, mut expected_out) = (before.clone(), before.clone(), before);
        let answer = finish(&record, &mut out);
        let expected = expected_finish(&record, &mut expected_out);
        assert_eq!((answer, &out), (expected, &expected_out), "{record:?}");
        let other = finish(&changed_past_taken(random, &record), &mut other_out);
        assert_eq!((answer, &out), (other, &other_out), "{record:?}");
        seen[answer.number] += 1;
    }
    for number in [0, 1, 2, 3, 4, 8, 9] {
        assert!(seen[number] > RECORDS / 100, "{seen:?}");
    }
}
