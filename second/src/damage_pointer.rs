//! Damage to pointer calls: numbers, lengths, spare bits, and metadata broken in each way document 01 names.

use crate::bits::{bit_of_bytes, bytes_that_hold, set_bit_of_bytes};
use crate::call::{PointerRead, PointerWrite};
use crate::damage::{number_near_limit, number_outside, resize_bytes};
use crate::make_pointer::{full_with_anything, some_active_entries};
use crate::pointer::{
    entry_start, metadata_bits, stored_metadata, ENTRY_BITS, MOST_ENTRIES, POINTER_BITS,
};
use crate::random::Random;

/// Gives a pointer write one kind of damage.
pub fn damage_write(random: &mut Random, call: &mut PointerWrite) {
    match random.below(100) {
        0..=14 => damage_number(random, &mut call.n, &mut call.metadata),
        15..=34 => {
            let buffers = [
                &mut call.data,
                &mut call.mask,
                &mut call.values,
                &mut call.cells,
                &mut call.metadata,
            ];
            damage_lengths(random, buffers);
        }
        kind => damage_metadata(random, kind, call.n, &mut call.metadata),
    }
}

/// Gives a pointer read one kind of damage.
pub fn damage_read(random: &mut Random, call: &mut PointerRead) {
    match random.below(100) {
        0..=14 => damage_number(random, &mut call.n, &mut call.metadata),
        15..=34 => {
            let buffers = [&mut call.cells, &mut call.metadata, &mut call.output];
            damage_lengths(random, buffers);
        }
        kind => damage_metadata(random, kind, call.n, &mut call.metadata),
    }
}

/// Gives n another value; half the time the metadata then gets the length that the new n would ask for.
fn damage_number(random: &mut Random, n: &mut u64, metadata: &mut Vec<u8>) {
    *n = if random.percent(75) {
        number_outside(random, *n, MOST_ENTRIES)
    } else {
        number_near_limit(random, *n, MOST_ENTRIES)
    };
    if *n <= 40 && random.bit() {
        metadata.resize(bytes_that_hold(metadata_bits(*n as usize)), 0);
    }
}

/// Gives one buffer, or now and then two, a wrong length.
fn damage_lengths<const COUNT: usize>(random: &mut Random, buffers: [&mut Vec<u8>; COUNT]) {
    let times = if random.percent(15) { 2 } else { 1 };
    for _ in 0..times {
        let place = random.below(COUNT);
        resize_bytes(random, buffers[place]);
    }
}

/// Damages metadata by the kind drawn: spare bits, equal pointers, or its form. Metadata whose length
/// earlier damage has changed stays as it is.
fn damage_metadata(random: &mut Random, kind: usize, n: u64, metadata: &mut Vec<u8>) {
    if !(1..=MOST_ENTRIES).contains(&n) {
        return;
    }
    let n = n as usize;
    if metadata.len() != bytes_that_hold(metadata_bits(n)) {
        return;
    }
    match kind {
        35..=51 => set_spare_bits(random, n, metadata),
        52..=69 => repeat_pointer(random, n, metadata),
        _ => break_form(random, n, metadata),
    }
}

/// Sets the first spare bit, the last, any one or all.
fn set_spare_bits(random: &mut Random, n: usize, metadata: &mut [u8]) {
    let first = metadata_bits(n);
    let last = metadata.len() * 8 - 1;
    let one = random.between(first, last);
    match random.below(4) {
        0 => set_bit_of_bytes(metadata, first, true),
        1 => set_bit_of_bytes(metadata, last, true),
        2 => set_bit_of_bytes(metadata, one, true),
        _ => {
            for spare in first..=last {
                set_bit_of_bytes(metadata, spare, true);
            }
        }
    }
}

/// Fills the row with at least two active entries, two of which name the same position.
fn repeat_pointer(random: &mut Random, n: usize, metadata: &mut Vec<u8>) {
    if n < 2 {
        return;
    }
    let active = random.between(2, n);
    let mut entries = some_active_entries(random, active);
    let first = random.below(active);
    let second = match random.below(3) {
        0 => (first + 1) % active,
        1 => active - 1,
        _ => random.below(active),
    };
    entries[second].pointer = entries[first].pointer;
    *metadata = stored_metadata(n, &entries);
}

/// The number of ones from the lowest in the unary field of the last entry.
fn unary(n: usize, metadata: &[u8]) -> usize {
    (0..n - 1)
        .take_while(|bit| bit_of_bytes(metadata, entry_start(n) + bit))
        .count()
}

/// Makes the row one that is not full, with room for a gap if n allows it; answers the active count.
fn make_not_full(random: &mut Random, n: usize, metadata: &mut Vec<u8>) -> usize {
    if bit_of_bytes(metadata, 0) || random.percent(30) {
        let active = random.between(0, n - 1);
        *metadata = stored_metadata(n, &some_active_entries(random, active));
    }
    unary(n, metadata)
}

/// Sets a bit of entry e.
fn set_in_entry(metadata: &mut [u8], e: usize, bit: usize) {
    set_bit_of_bytes(metadata, entry_start(e) + bit, true);
}

/// Breaks the form of the metadata in one of the ways of document 01, or comes as near as can be.
fn break_form(random: &mut Random, n: usize, metadata: &mut Vec<u8>) {
    let kind = random.below(17);
    let active = if kind <= 10 {
        make_not_full(random, n, metadata)
    } else {
        0
    };
    let some_bit = random.below(metadata_bits(n));
    match kind {
        // A hole in the unary field.
        0 | 1 if active + 2 < n => {
            let bit = random.between(active + 1, n - 2);
            set_in_entry(metadata, n, bit);
        }
        // One more in unary: over an entry that is 0, or past the field.
        2 | 3 => set_in_entry(metadata, n, active),
        // All the ones that there can be, and one more than that.
        4 => (0..n - 1).for_each(|bit| set_in_entry(metadata, n, bit)),
        5 => (0..n).for_each(|bit| set_in_entry(metadata, n, bit)),
        // A bit in the rest of the last entry, and its replacement bit.
        6 => {
            let bit = random.between(n - 1, ENTRY_BITS - 1);
            set_in_entry(metadata, n, bit);
        }
        7 => set_in_entry(metadata, n, POINTER_BITS),
        // A gap entry that repeats an active one, or that holds one bit.
        8..=10 if active + 1 < n => fill_gap(random, n, active, metadata),
        // The full bit turned over above what is there.
        11 | 12 => {
            let full = bit_of_bytes(metadata, 0);
            set_bit_of_bytes(metadata, 0, !full);
        }
        // The full bit with anything; the same without it.
        13 => *metadata = full_with_anything(random, n),
        14 => {
            *metadata = full_with_anything(random, n);
            set_bit_of_bytes(metadata, 0, false);
        }
        // An active entry fewer in unary, so that it stands in the gap.
        15 if unary(n, metadata) > 0 => {
            let highest = entry_start(n) + unary(n, metadata) - 1;
            set_bit_of_bytes(metadata, highest, false);
        }
        // Any one bit turned over.
        _ => {
            let bit = bit_of_bytes(metadata, some_bit);
            set_bit_of_bytes(metadata, some_bit, !bit);
        }
    }
}

/// Fills an entry between the last active one and the last: with an active entry's bits, or with one bit.
fn fill_gap(random: &mut Random, n: usize, active: usize, metadata: &mut [u8]) {
    let gap = random.between(active + 1, n - 1);
    if active > 0 && random.bit() {
        let from = random.between(1, active);
        for bit in 0..ENTRY_BITS {
            let value = bit_of_bytes(metadata, entry_start(from) + bit);
            set_bit_of_bytes(metadata, entry_start(gap) + bit, value);
        }
    } else {
        let any = random.below(ENTRY_BITS);
        let bit = random.pick(&[0, POINTER_BITS, any]);
        set_in_entry(metadata, gap, bit);
    }
}
