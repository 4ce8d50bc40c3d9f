//! Pointer rows: 512 data cells, n correction entries and one full bit (document 01, "Pointer rows").

use crate::bits::{bit_of_bytes, bytes_that_hold, has_spare_bit, set_bit_of_bytes};

pub const POSITIONS: usize = 512;
pub const ROW_BYTES: usize = 64;
pub const MOST_ENTRIES: u64 = 10;
pub const POINTER_BITS: usize = 9;
pub const ENTRY_BITS: usize = 10;

/// An active entry: the position it names and the bit shown in place of that position's cell.
#[derive(Clone, Debug, PartialEq, Eq)]
pub struct Entry {
    pub pointer: usize,
    pub replacement: bool,
}

/// What a pointer write answers: 0 or the refusal, the active count afterwards, and how many are new.
#[derive(Clone, Copy, Debug, PartialEq, Eq)]
pub struct WriteAnswer {
    pub number: u8,
    pub active: usize,
    pub new: usize,
}

/// What an accepted write will store, worked out before any lent memory is touched.
struct Plan {
    cells: Vec<u8>,
    metadata: Vec<u8>,
    active: usize,
    new: usize,
}

/// The number of metadata bits of a row with n entries.
pub fn metadata_bits(n: usize) -> usize {
    1 + ENTRY_BITS * n
}

/// The metadata bit where entry e starts; e counts from 1.
pub fn entry_start(e: usize) -> usize {
    1 + ENTRY_BITS * (e - 1)
}

/// Refusal 1: n lies outside its range. Otherwise n as an index.
fn judged_entries(n: u64) -> Result<usize, u8> {
    if (1..=MOST_ENTRIES).contains(&n) {
        Ok(n as usize)
    } else {
        Err(1)
    }
}

/// The pointer stored in entry e: nine bits, lowest first.
fn stored_pointer(metadata: &[u8], e: usize) -> usize {
    let mut pointer = 0;
    for bit in 0..POINTER_BITS {
        if bit_of_bytes(metadata, entry_start(e) + bit) {
            pointer += 1 << bit;
        }
    }
    pointer
}

/// The replacement bit stored in entry e.
fn stored_replacement(metadata: &[u8], e: usize) -> bool {
    bit_of_bytes(metadata, entry_start(e) + POINTER_BITS)
}

/// Whether all ten bits of entry e are 0.
fn entry_is_zero(metadata: &[u8], e: usize) -> bool {
    (0..ENTRY_BITS).all(|bit| !bit_of_bytes(metadata, entry_start(e) + bit))
}

/// The number of active entries that metadata of the right length gives, or refusal 4 if it is not well formed.
fn active_count(n: usize, metadata: &[u8]) -> Result<usize, u8> {
    if bit_of_bytes(metadata, 0) {
        return Ok(n);
    }
    let last = entry_start(n);
    let mut active = 0;
    while active < n - 1 && bit_of_bytes(metadata, last + active) {
        active += 1;
    }
    for bit in active..ENTRY_BITS {
        if bit_of_bytes(metadata, last + bit) {
            return Err(4);
        }
    }
    for e in active + 1..n {
        if !entry_is_zero(metadata, e) {
            return Err(4);
        }
    }
    Ok(active)
}

/// The active entries in their places, or the lowest of refusals 3 (a spare bit), 4 (not well formed)
/// and 5 (two active entries with one pointer). The metadata has its right length.
pub fn active_entries(n: usize, metadata: &[u8]) -> Result<Vec<Entry>, u8> {
    if has_spare_bit(metadata, metadata_bits(n)) {
        return Err(3);
    }
    let active = active_count(n, metadata)?;
    let mut entries: Vec<Entry> = Vec::new();
    for e in 1..=active {
        entries.push(Entry {
            pointer: stored_pointer(metadata, e),
            replacement: stored_replacement(metadata, e),
        });
    }
    for first in 0..active {
        for second in first + 1..active {
            if entries[first].pointer == entries[second].pointer {
                return Err(5);
            }
        }
    }
    Ok(entries)
}

/// The metadata that holds these active entries, at most n of them.
pub fn stored_metadata(n: usize, entries: &[Entry]) -> Vec<u8> {
    let mut metadata = vec![0; bytes_that_hold(metadata_bits(n))];
    for (index, entry) in entries.iter().enumerate() {
        let start = entry_start(index + 1);
        for bit in 0..POINTER_BITS {
            let value = (entry.pointer >> bit) & 1 == 1;
            set_bit_of_bytes(&mut metadata, start + bit, value);
        }
        set_bit_of_bytes(&mut metadata, start + POINTER_BITS, entry.replacement);
    }
    if entries.len() == n {
        set_bit_of_bytes(&mut metadata, 0, true);
    } else {
        for bit in 0..entries.len() {
            set_bit_of_bytes(&mut metadata, entry_start(n) + bit, true);
        }
    }
    metadata
}

/// Whether an active entry names the position.
fn is_named(entries: &[Entry], position: usize) -> bool {
    entries.iter().any(|entry| entry.pointer == position)
}

/// Works out a write without touching lent memory: the plan, or the lowest refusal of 1, 2, 3, 4, 5 and 6.
fn plan_write(
    n: u64,
    data: &[u8],
    mask: &[u8],
    values: &[u8],
    cells_length: usize,
    metadata: &[u8],
) -> Result<Plan, u8> {
    let n = judged_entries(n)?;
    let lengths = [data.len(), mask.len(), values.len(), cells_length];
    if lengths.iter().any(|length| *length != ROW_BYTES) {
        return Err(2);
    }
    if metadata.len() != bytes_that_hold(metadata_bits(n)) {
        return Err(2);
    }
    let mut entries = active_entries(n, metadata)?;
    let active_before = entries.len();
    for entry in &mut entries {
        entry.replacement = bit_of_bytes(data, entry.pointer);
    }

    let mut unserved = Vec::new();
    let mut cells = vec![0; ROW_BYTES];
    for position in 0..POSITIONS {
        let wanted = bit_of_bytes(data, position);
        let stuck = bit_of_bytes(mask, position);
        let stuck_value = bit_of_bytes(values, position);
        if stuck && stuck_value != wanted && !is_named(&entries, position) {
            unserved.push(position);
        }
        let stored = if stuck { stuck_value } else { wanted };
        set_bit_of_bytes(&mut cells, position, stored);
    }
    if active_before + unserved.len() > n {
        return Err(6);
    }
    for position in &unserved {
        entries.push(Entry {
            pointer: *position,
            replacement: bit_of_bytes(data, *position),
        });
    }
    Ok(Plan {
        cells,
        metadata: stored_metadata(n, &entries),
        active: entries.len(),
        new: unserved.len(),
    })
}

/// The pointer write: stores cells and metadata if it accepts; after a refusal the counts are 0 and nothing is altered.
pub fn write(
    n: u64,
    data: &[u8],
    mask: &[u8],
    values: &[u8],
    cells: &mut [u8],
    metadata: &mut [u8],
) -> WriteAnswer {
    match plan_write(n, data, mask, values, cells.len(), metadata) {
        Err(number) => WriteAnswer {
            number,
            active: 0,
            new: 0,
        },
        Ok(plan) => {
            cells.copy_from_slice(&plan.cells);
            metadata.copy_from_slice(&plan.metadata);
            WriteAnswer {
                number: 0,
                active: plan.active,
                new: plan.new,
            }
        }
    }
}

/// Works out what a read shows, or the lowest refusal of 1, 2, 3, 4 and 5.
fn plan_read(n: u64, cells: &[u8], metadata: &[u8], output_length: usize) -> Result<Vec<u8>, u8> {
    let n = judged_entries(n)?;
    if cells.len() != ROW_BYTES || output_length != ROW_BYTES {
        return Err(2);
    }
    if metadata.len() != bytes_that_hold(metadata_bits(n)) {
        return Err(2);
    }
    let entries = active_entries(n, metadata)?;
    let mut shown = vec![0; ROW_BYTES];
    for position in 0..POSITIONS {
        let mut bit = bit_of_bytes(cells, position);
        for entry in &entries {
            if entry.pointer == position {
                bit = entry.replacement;
            }
        }
        set_bit_of_bytes(&mut shown, position, bit);
    }
    Ok(shown)
}

/// The pointer read: answers 0 and fills the output, or answers the refusal and alters nothing.
pub fn read(n: u64, cells: &[u8], metadata: &[u8], output: &mut [u8]) -> u8 {
    match plan_read(n, cells, metadata, output.len()) {
        Err(number) => number,
        Ok(shown) => {
            output.copy_from_slice(&shown);
            0
        }
    }
}
