//! The archive's functions of blocks that arrive in lumps, over a transfer that is lent.

use std::mem::MaybeUninit;

use crate::answers::GridReadAnswer;
use crate::raw;
pub use crate::raw::{Transfer, TransferMissingAnswer, MAX_BLOCK_BYTES};

/// The archive's start of a transfer in this place, which need not hold one yet; the numbers are rows, columns and K.
#[inline(always)]
pub fn start(place: &mut MaybeUninit<Transfer>, numbers: [usize; 3]) -> usize {
    let [rows, columns, k] = numbers;
    // SAFETY: there is room for a record, borrowed by this call alone, which fills all of it.
    unsafe { raw::ernavluq_transfer_start_r2(place.as_mut_ptr(), rows, columns, k) }
}

/// The archive's lump of a transfer.
#[inline(always)]
pub fn lump(transfer: &mut Transfer, bytes: &[u8]) -> usize {
    // SAFETY: pointer and length are one slice's, which is only read, and the record is borrowed by this call alone.
    unsafe { raw::ernavluq_transfer_lump_r2(transfer, bytes.as_ptr(), bytes.len()) }
}

/// What is missing of a transfer, as the archive says.
#[inline(always)]
pub fn missing(transfer: &Transfer) -> TransferMissingAnswer {
    // SAFETY: the record is only read.
    unsafe { raw::ernavluq_transfer_missing_r2(transfer) }
}

/// The archive's finish of a transfer.
#[inline(always)]
pub fn finish(transfer: &Transfer, out: &mut [u64]) -> GridReadAnswer {
    // SAFETY: pointer and length are one slice's, which is aligned and borrowed by this call alone; the record is only read.
    unsafe { raw::ernavluq_transfer_finish_r2(transfer, out.as_mut_ptr(), out.len()) }
}
