//! The peer's grid blocks: which plan, store and read are taken for K. A K out of range is refused by the one taken.

use super::counters::first_three;
use super::wide::first_above;
use super::{grid_narrow, grid_wide};
use crate::answers::{GridAnswer, GridReadAnswer};

/// The greatest K whose counters have one or two bits.
const NARROW: usize = 3;

/// The grid plan of documents 01 and 02.
#[inline(always)]
pub fn plan(
    rows: usize,
    columns: usize,
    k: usize,
    data: &[u64],
    mask: &[u64],
    values: &[u64],
    counters: &mut [u8],
) -> GridAnswer {
    if k <= NARROW {
        grid_narrow::plan(rows, columns, k, data, mask, values, counters)
    } else {
        grid_wide::plan(rows, columns, k, data, mask, values, counters)
    }
}

/// The grid store of document 02.
#[inline(always)]
#[allow(clippy::too_many_arguments)]
pub fn store(
    rows: usize,
    columns: usize,
    k: usize,
    data: &[u64],
    mask: &[u64],
    values: &[u64],
    counters: &[u8],
    cells: &mut [u64],
) -> GridAnswer {
    if k <= NARROW {
        grid_narrow::store(rows, columns, k, data, mask, values, counters, cells)
    } else {
        grid_wide::store(rows, columns, k, data, mask, values, counters, cells)
    }
}

/// The index of the first counter above K, which there is.
#[inline(always)]
pub fn first_bad(k: usize, counters: &[u8]) -> usize {
    if k <= NARROW {
        first_three(counters)
    } else {
        first_above(k, counters)
    }
}

/// The grid read of documents 01 and 02. The index is looked for afterwards, at no cost to a read that is accepted.
#[inline(always)]
pub fn read(
    rows: usize,
    columns: usize,
    k: usize,
    cells: &[u64],
    counters: &[u8],
    out: &mut [u64],
) -> GridReadAnswer {
    let number = if k <= NARROW {
        grid_narrow::read_number(rows, columns, k, cells, counters, out)
    } else {
        grid_wide::read_number(rows, columns, k, cells, counters, out)
    };
    let index = if number == 4 {
        first_bad(k, counters)
    } else {
        0
    };
    GridReadAnswer { number, index }
}
