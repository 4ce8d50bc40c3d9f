//! The archive's six functions of whole rows and blocks, over slices.

use crate::answers::{GridAnswer, GridConvertAnswer, GridReadAnswer};
use crate::answers::{PointerReadAnswer, PointerWriteAnswer};
use crate::raw;

/// The archive's pointer read.
#[inline(always)]
pub fn pointer_read(n: usize, cells: &[u8], metadata: &[u8], out: &mut [u8]) -> PointerReadAnswer {
    // SAFETY: each pointer and length is one slice's, and the borrows keep the changed one apart from the others.
    unsafe {
        raw::ernavluq_pointer_read_r2(
            n,
            cells.as_ptr(),
            cells.len(),
            metadata.as_ptr(),
            metadata.len(),
            out.as_mut_ptr(),
            out.len(),
        )
    }
}

/// The archive's pointer write.
#[inline(always)]
pub fn pointer_write(
    n: usize,
    data: &[u8],
    mask: &[u8],
    values: &[u8],
    cells: &mut [u8],
    metadata: &mut [u8],
) -> PointerWriteAnswer {
    let mut answer = PointerWriteAnswer::default();
    // SAFETY: as for the pointer read.
    unsafe {
        raw::ernavluq_pointer_write_r2(
            &mut answer,
            n,
            data.as_ptr(),
            data.len(),
            mask.as_ptr(),
            mask.len(),
            values.as_ptr(),
            values.len(),
            cells.as_mut_ptr(),
            cells.len(),
            metadata.as_mut_ptr(),
            metadata.len(),
        )
    }
    answer
}

/// The archive's grid read; the numbers are rows, columns and K.
#[inline(always)]
pub fn grid_read(
    numbers: [usize; 3],
    cells: &[u64],
    counters: &[u8],
    out: &mut [u64],
) -> GridReadAnswer {
    // SAFETY: as for the pointer read; a slice of words is aligned.
    unsafe {
        raw::ernavluq_grid_read_r2(
            numbers[0],
            numbers[1],
            numbers[2],
            cells.as_ptr(),
            cells.len(),
            counters.as_ptr(),
            counters.len(),
            out.as_mut_ptr(),
            out.len(),
        )
    }
}

/// The archive's grid plan; the numbers are rows, columns and K.
#[inline(always)]
pub fn grid_plan(
    numbers: [usize; 3],
    data: &[u64],
    mask: &[u64],
    values: &[u64],
    counters: &mut [u8],
) -> GridAnswer {
    let mut answer = GridAnswer::default();
    // SAFETY: as for the grid read.
    unsafe {
        raw::ernavluq_grid_plan_r2(
            &mut answer,
            numbers[0],
            numbers[1],
            numbers[2],
            data.as_ptr(),
            data.len(),
            mask.as_ptr(),
            mask.len(),
            values.as_ptr(),
            values.len(),
            counters.as_mut_ptr(),
            counters.len(),
        )
    }
    answer
}

/// The archive's grid store; the numbers are rows, columns and K.
#[inline(always)]
pub fn grid_store(
    numbers: [usize; 3],
    data: &[u64],
    mask: &[u64],
    values: &[u64],
    counters: &[u8],
    cells: &mut [u64],
) -> GridAnswer {
    let mut answer = GridAnswer::default();
    // SAFETY: as for the grid read.
    unsafe {
        raw::ernavluq_grid_store_r2(
            &mut answer,
            numbers[0],
            numbers[1],
            numbers[2],
            data.as_ptr(),
            data.len(),
            mask.as_ptr(),
            mask.len(),
            values.as_ptr(),
            values.len(),
            counters.as_ptr(),
            counters.len(),
            cells.as_mut_ptr(),
            cells.len(),
        )
    }
    answer
}

/// The archive's grid convert; the numbers are rows, columns, K and the target.
#[inline(always)]
pub fn grid_convert(numbers: [usize; 4], counters: &[u8], out: &mut [u8]) -> GridConvertAnswer {
    // SAFETY: as for the pointer read.
    unsafe {
        raw::ernavluq_grid_convert_r2(
            numbers[0],
            numbers[1],
            numbers[2],
            numbers[3],
            counters.as_ptr(),
            counters.len(),
            out.as_mut_ptr(),
            out.len(),
        )
    }
}
