//! The peer's read of a block that arrives in lumps: the caller keeps the transfer, and each call changes it in place.
//!
//! A block's bytes are copied once, to where the read wants them: the counters end where the words of the cells begin, so
//! that the words are aligned whatever the counters take. Nothing is cleared, since a read comes only after every byte.

use std::mem::MaybeUninit;
use std::slice;

use super::convert::width_of;
use super::grid;
use crate::answers::{Figures, GridReadAnswer};

/// The words that the longest counters take; the cells stand after them.
const COUNTER_WORDS: usize = 6;

/// The byte at which the cells begin.
const CELLS: usize = 8 * COUNTER_WORDS;

/// The words of the longest block.
const WORDS: usize = COUNTER_WORDS + 64;

/// A transfer on its way.
pub struct Transfer {
    rows: usize,
    columns: usize,
    k: usize,
    /// What the last start or lump answered: 0, or 1 or 9 until a new start.
    number: usize,
    /// Where the counters begin, where the next byte goes, and where the block ends.
    first: usize,
    next: usize,
    end: usize,
    words: [MaybeUninit<u64>; WORDS],
}

/// Starts a transfer of a block, whatever there was before.
#[inline(never)]
pub fn start(rows: usize, columns: usize, k: usize) -> Transfer {
    let outside = (rows.wrapping_sub(1) | columns.wrapping_sub(1)) > 63 || k.wrapping_sub(1) > 6;
    let (first, end) = if outside {
        (CELLS, CELLS)
    } else {
        let counter_bytes = (width_of(k) * (rows + columns) + 7) >> 3;
        (CELLS - counter_bytes, CELLS + 8 * rows)
    };
    Transfer {
        rows,
        columns,
        k,
        number: usize::from(outside),
        first,
        next: first,
        end,
        words: [MaybeUninit::uninit(); WORDS],
    }
}

/// What the last start or lump answered.
#[inline(always)]
pub fn number(transfer: &Transfer) -> usize {
    transfer.number
}

/// Takes a lump and answers 0, or leaves it and answers 1 or 9.
#[inline(never)]
pub fn lump(transfer: &mut Transfer, lump: &[u8]) -> usize {
    if transfer.number != 0 {
        return transfer.number;
    }
    if lump.len() > transfer.end - transfer.next {
        transfer.number = 9;
        return 9;
    }
    let bytes = transfer.words.as_mut_ptr().cast::<u8>();
    // SAFETY: from `next` on the lump ends at `end` or before, and that is within the words. The lump is not part of them,
    // since they are borrowed to be changed.
    unsafe {
        let next = bytes.add(transfer.next);
        if let [byte] = lump {
            // Many lumps are single bytes, for which a call to copy memory is dear.
            next.write(*byte);
        } else {
            next.copy_from_nonoverlapping(lump.as_ptr(), lump.len());
        }
    }
    transfer.next += lump.len();
    0
}

/// Finishes a block: the ordinary read, straight from the bytes that were taken.
#[inline(always)]
pub fn finish(transfer: &Transfer, out: &mut [u64]) -> GridReadAnswer {
    let Transfer { rows, first, .. } = *transfer;
    if transfer.number != 0 {
        return GridReadAnswer::refused(transfer.number);
    }
    if out.len() != rows {
        return GridReadAnswer::refused(2);
    }
    if transfer.next != transfer.end {
        return GridReadAnswer::refused(8);
    }
    let words = transfer.words.as_ptr();
    // SAFETY: lumps have written each byte from `first` to `end`, which are the counters and then a word a row. The lowest
    // byte of a word comes first, as this machine has it.
    let (counters, cells) = unsafe {
        let counters = words.cast::<u8>().add(first);
        let cells = words.cast::<u64>().add(COUNTER_WORDS);
        (
            slice::from_raw_parts(counters, CELLS - first),
            slice::from_raw_parts(cells, rows),
        )
    };
    grid::read(rows, transfer.columns, transfer.k, cells, counters, out)
}

#[cfg(test)]
mod tests {
    use super::{finish, lump, start};
    use crate::answers::GridReadAnswer;

    #[test]
    fn words_stand_where_they_belong_whatever_the_counters_take() {
        for (rows, columns) in (1..=64_usize).flat_map(|rows| (1..=64).map(move |c| (rows, c))) {
            for (k, width) in [(1, 1), (2, 2), (3, 2), (4, 3), (7, 3)] {
                let counter_bytes = (width * (rows + columns)).div_ceil(8);
                let word = 0x0807_0605_0403_0201_u64;
                let cells: Vec<u64> = (0..rows as u32)
                    .map(|row| word.rotate_left(row) >> (64 - columns))
                    .collect();
                let mut bytes = vec![0; counter_bytes];
                bytes.extend(cells.iter().flat_map(|word| word.to_le_bytes()));
                let mut transfer = start(rows, columns, k);
                let mut out = vec![u64::MAX; rows];
                for piece in bytes.chunks(1 + (rows + columns) % 9) {
                    assert_eq!(finish(&transfer, &mut out).number, 8);
                    assert_eq!(lump(&mut transfer, piece), 0);
                }
                assert_eq!(finish(&transfer, &mut out), GridReadAnswer::default());
                assert_eq!(out, cells, "{rows} by {columns}, K = {k}");
            }
        }
    }
}
