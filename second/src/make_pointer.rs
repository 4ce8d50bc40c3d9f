//! Makes sound pointer calls: rows with few and many active entries, and faults around the last entry left.

use crate::bits::{bit_of_bytes, bytes_that_hold, set_bit_of_bytes};
use crate::call::{PointerRead, PointerWrite};
use crate::pointer::{active_entries, metadata_bits, stored_metadata, Entry, POSITIONS, ROW_BYTES};
use crate::random::Random;

/// Positions at the ends of the row and of its bytes.
const EDGE_POSITIONS: [usize; 12] = [0, 1, 2, 7, 8, 9, 255, 256, 257, 504, 510, 511];

/// A number of entries in its range, the limits more often.
fn some_entries(random: &mut Random) -> usize {
    match random.below(10) {
        0 => 1,
        1 => 10,
        2 => 2,
        3 => 9,
        _ => random.between(1, 10),
    }
}

/// How many entries are active: none, all, all but one, or any number.
fn some_active(random: &mut Random, n: usize) -> usize {
    match random.below(10) {
        0 | 1 => 0,
        2 | 3 => n,
        4 | 5 => n - 1,
        _ => random.between(0, n),
    }
}

/// A position, those at the edges more often.
pub fn some_position(random: &mut Random) -> usize {
    if random.percent(25) {
        random.pick(&EDGE_POSITIONS)
    } else {
        random.below(POSITIONS)
    }
}

/// So many active entries with different pointers.
pub fn some_active_entries(random: &mut Random, active: usize) -> Vec<Entry> {
    let mut entries: Vec<Entry> = Vec::new();
    while entries.len() < active {
        let pointer = some_position(random);
        if entries.iter().all(|entry| entry.pointer != pointer) {
            let replacement = random.bit();
            entries.push(Entry {
                pointer,
                replacement,
            });
        }
    }
    entries
}

/// A row of data: all zero, all one, or anything.
fn some_data(random: &mut Random) -> Vec<u8> {
    match random.below(8) {
        0 => vec![0; ROW_BYTES],
        1 => vec![0xff; ROW_BYTES],
        _ => random.bytes(ROW_BYTES),
    }
}

/// Makes a cell stuck, at the wanted bit or at the other.
fn stick(call: &mut PointerWrite, position: usize, wrong: bool) {
    let wanted = bit_of_bytes(&call.data, position);
    set_bit_of_bytes(&mut call.mask, position, true);
    set_bit_of_bytes(&mut call.values, position, wanted != wrong);
}

/// Makes up to so many more cells that no active entry names stuck at the other value.
fn stick_unserved(random: &mut Random, call: &mut PointerWrite, named: &[usize], count: usize) {
    let mut added = 0;
    for _ in 0..20 * count {
        let position = some_position(random);
        let wanted = bit_of_bytes(&call.data, position);
        let unserved =
            bit_of_bytes(&call.mask, position) && bit_of_bytes(&call.values, position) != wanted;
        if added < count && !named.contains(&position) && !unserved {
            stick(call, position, true);
            added += 1;
        }
    }
}

/// Makes some right cells stuck: none, a few, or all that are still sound.
fn stick_right(random: &mut Random, call: &mut PointerWrite) {
    let count = match random.below(12) {
        0 => POSITIONS,
        1..=4 => 0,
        5 => random.between(1, 100),
        _ => random.between(1, 6),
    };
    for turn in 0..count {
        let position = if count == POSITIONS {
            turn
        } else {
            some_position(random)
        };
        if !bit_of_bytes(&call.mask, position) {
            stick(call, position, false);
        }
    }
}

/// How many positions to leave unserved: often exactly as many as entries are left, or one more or fewer.
fn some_unserved(random: &mut Random, left: usize) -> usize {
    match random.below(10) {
        0..=2 => left,
        3..=4 => left + 1,
        5 if left > 0 => left - 1,
        6 => 0,
        7 => left + random.between(1, 9),
        _ => random.between(0, left),
    }
}

/// A write to a row with some active entries, some stuck and some on sound cells, and some positions unserved.
pub fn write_of_some_row(random: &mut Random) -> PointerWrite {
    let n = some_entries(random);
    let active = some_active(random, n);
    let entries = some_active_entries(random, active);
    let named: Vec<usize> = entries.iter().map(|entry| entry.pointer).collect();
    let mut call = PointerWrite {
        n: n as u64,
        data: some_data(random),
        mask: vec![0; ROW_BYTES],
        values: random.bytes(ROW_BYTES),
        cells: random.bytes(ROW_BYTES),
        metadata: stored_metadata(n, &entries),
    };
    for position in &named {
        if random.percent(70) {
            let wrong = random.bit();
            stick(&mut call, *position, wrong);
        }
    }
    let unserved = some_unserved(random, n - active);
    stick_unserved(random, &mut call, &named, unserved);
    stick_right(random, &mut call);
    if random.percent(4) {
        call.mask = random.bytes(ROW_BYTES);
    }
    call
}

/// A further write to a row that an accepted write left: other data, the same faults and perhaps new ones.
pub fn further_write(random: &mut Random, row: PointerWrite) -> PointerWrite {
    let n = row.n as usize;
    let mut call = row;
    let named: Vec<usize> = match active_entries(n, &call.metadata) {
        Ok(entries) => entries.iter().map(|entry| entry.pointer).collect(),
        Err(_) => Vec::new(),
    };
    match random.below(4) {
        0 => call.data = some_data(random),
        1 => {
            let position = some_position(random);
            let bit = bit_of_bytes(&call.data, position);
            set_bit_of_bytes(&mut call.data, position, !bit);
        }
        2 => {
            for position in &named {
                let bit = random.bit();
                set_bit_of_bytes(&mut call.data, *position, bit);
            }
        }
        _ => {}
    }
    if named.len() < n {
        let unserved = random.between(0, n - named.len() + 1).min(3);
        stick_unserved(random, &mut call, &named, unserved);
    } else if random.percent(20) {
        stick_unserved(random, &mut call, &named, 1);
    }
    if random.bit() {
        call.cells = random.bytes(ROW_BYTES);
    }
    call
}

/// A read of the cells and metadata that an accepted write left.
pub fn read_of(random: &mut Random, row: PointerWrite) -> PointerRead {
    PointerRead {
        n: row.n,
        cells: row.cells,
        metadata: row.metadata,
        output: random.bytes(ROW_BYTES),
    }
}

/// A read of any cells with some active entries, or with a full bit and anything after it.
pub fn read_of_some_row(random: &mut Random) -> PointerRead {
    let n = some_entries(random);
    let active = some_active(random, n);
    let mut metadata = stored_metadata(n, &some_active_entries(random, active));
    if random.percent(10) {
        metadata = full_with_anything(random, n);
    }
    PointerRead {
        n: n as u64,
        cells: some_data(random),
        metadata,
        output: random.bytes(ROW_BYTES),
    }
}

/// Metadata with the full bit 1, anything in the entries, and spare bits 0.
pub fn full_with_anything(random: &mut Random, n: usize) -> Vec<u8> {
    let mut metadata = random.bytes(bytes_that_hold(metadata_bits(n)));
    set_bit_of_bytes(&mut metadata, 0, true);
    for spare in metadata_bits(n)..metadata.len() * 8 {
        set_bit_of_bytes(&mut metadata, spare, false);
    }
    metadata
}
