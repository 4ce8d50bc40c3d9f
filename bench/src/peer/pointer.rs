//! The peer's pointer rows: a row as eight words, and its metadata as one double word.

use super::bytes::{load, store};
use crate::answers::{Figures, PointerWriteAnswer};

/// A row of 512 cells as words; position p is bit p mod 64 of word p / 64.
type Row = [u64; 8];

/// A lent row as words.
#[inline(always)]
fn row_of(bytes: &[u8; 64]) -> Row {
    let mut row = [0; 8];
    for (word, eight) in row.iter_mut().zip(bytes.as_chunks::<8>().0) {
        *word = u64::from_le_bytes(*eight);
    }
    row
}

/// Stores a row.
#[inline(always)]
fn store_row(bytes: &mut [u8; 64], row: Row) {
    for (eight, word) in bytes.as_chunks_mut::<8>().0.iter_mut().zip(row) {
        *eight = word.to_le_bytes();
    }
}

/// The metadata bytes of n entries.
#[inline(always)]
fn metadata_bytes(n: usize) -> usize {
    (10 * n + 8) >> 3
}

/// The active entries that well-formed metadata gives, or refusal 3 or 4.
#[inline(always)]
fn active_entries(n: usize, metadata: u128) -> Result<usize, usize> {
    if metadata >> (10 * n + 1) != 0 {
        return Err(3);
    }
    if metadata & 1 == 1 {
        return Ok(n);
    }
    let last = (metadata >> (10 * n - 9)) as u32;
    let active = last.trailing_ones() as usize;
    // The last entry has nothing but its ones, fewer than n of them, and the entries before it are 0 from the first that is not active.
    let before = metadata & ((1 << (10 * n - 9)) - 1);
    let unary = last & (last + 1) == 0 && active < n;
    if unary && before >> (10 * active + 1) == 0 {
        Ok(active)
    } else {
        Err(4)
    }
}

/// The pointer write of document 01.
#[inline(never)]
pub fn write(
    n: usize,
    data: &[u8],
    mask: &[u8],
    values: &[u8],
    cells: &mut [u8],
    metadata: &mut [u8],
) -> PointerWriteAnswer {
    if n.wrapping_sub(1) > 9 {
        return PointerWriteAnswer::refused(1);
    }
    let (Ok(data), Ok(mask), Ok(values), Ok(cells)) = (
        <&[u8; 64]>::try_from(data),
        <&[u8; 64]>::try_from(mask),
        <&[u8; 64]>::try_from(values),
        <&mut [u8; 64]>::try_from(cells),
    ) else {
        return PointerWriteAnswer::refused(2);
    };
    if metadata.len() != metadata_bytes(n) {
        return PointerWriteAnswer::refused(2);
    }
    let old = load(metadata);
    let active = match active_entries(n, old) {
        Ok(active) => active,
        Err(number) => return PointerWriteAnswer::refused(number),
    };

    let data = row_of(data);
    // Entries come in at the top and move down, so that every shift but the last is by a fixed count.
    let mut entries = 0u128;
    let mut named: Row = [0; 8];
    let mut twice = 0;
    let mut rest = old >> 1;
    for _ in 0..active {
        let pointer = rest as u64 & 511;
        let place = (pointer >> 6) as usize;
        let bit = pointer & 63;
        twice |= named[place] >> bit & 1;
        named[place] |= 1 << bit;
        let entry = pointer | (data[place] >> bit & 1) << 9;
        entries = entries >> 10 | u128::from(entry) << 118;
        rest >>= 10;
    }
    if twice != 0 {
        return PointerWriteAnswer::refused(5);
    }

    let (mask, values) = (row_of(mask), row_of(values));
    let mut stored: Row = [0; 8];
    let mut unserved: Row = [0; 8];
    let mut any = 0;
    for place in 0..8 {
        let wrong = (data[place] ^ values[place]) & mask[place];
        stored[place] = data[place] ^ wrong;
        unserved[place] = wrong & !named[place];
        any |= unserved[place];
    }
    let mut new = 0;
    if any != 0 {
        new = unserved.iter().map(|word| word.count_ones() as usize).sum();
        if active + new > n {
            return PointerWriteAnswer::refused(6);
        }
        // The words that still hold an unserved position: one loop over positions, not one in another.
        let mut words = unserved
            .iter()
            .rev()
            .fold(0, |set, word| set << 1 | u32::from(*word != 0));
        for _ in 0..new {
            let place = words.trailing_zeros() as usize & 7;
            let word = unserved[place];
            let bit = u64::from(word.trailing_zeros());
            unserved[place] = word & word.wrapping_sub(1);
            words &= !(u32::from(unserved[place] == 0) << place);
            let entry = (place as u64) << 6 | bit | (data[place] >> bit & 1) << 9;
            entries = entries >> 10 | u128::from(entry) << 118;
        }
    }
    let total = active + new;
    // Down to bit 1, above the full bit; with no entry there is nothing to move.
    let packed = if total == 0 {
        0
    } else {
        entries >> (127 - 10 * total)
    };
    let rest = if total == n {
        1
    } else {
        ((1u128 << total) - 1) << (10 * n - 9)
    };
    store_row(cells, stored);
    store(metadata, packed | rest);
    PointerWriteAnswer {
        number: 0,
        active: total,
        new_entries: new,
    }
}

/// The pointer read of document 01.
#[inline(never)]
pub fn read(n: usize, cells: &[u8], metadata: &[u8], out: &mut [u8]) -> usize {
    if n.wrapping_sub(1) > 9 {
        return 1;
    }
    let (Ok(cells), Ok(out)) = (<&[u8; 64]>::try_from(cells), <&mut [u8; 64]>::try_from(out))
    else {
        return 2;
    };
    if metadata.len() != metadata_bytes(n) {
        return 2;
    }
    let metadata = load(metadata);
    let active = match active_entries(n, metadata) {
        Ok(active) => active,
        Err(number) => return number,
    };
    let mut named: Row = [0; 8];
    let mut replaced: Row = [0; 8];
    let mut twice = 0;
    let mut rest = metadata >> 1;
    for _ in 0..active {
        let entry = rest as u64;
        let place = (entry >> 6 & 7) as usize;
        let bit = entry & 63;
        twice |= named[place] >> bit & 1;
        named[place] |= 1 << bit;
        replaced[place] |= (entry >> 9 & 1) << bit;
        rest >>= 10;
    }
    if twice != 0 {
        return 5;
    }
    let mut shown = row_of(cells);
    for place in 0..8 {
        shown[place] = shown[place] & !named[place] | replaced[place];
    }
    store_row(out, shown);
    0
}
