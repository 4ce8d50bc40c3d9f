//! Repair codes for memory whose cells get stuck at 0 or 1: pointer rows and grid blocks, over the archive `libernavluq.a`, whose calls are proved.
//!
//! Any number and slices of any length may be passed. Every call ends, and it either does its work or gives one [`Refusal`], the lowest that applies; then
//! no slice is altered. Only the finish of a [`Transfer`], which reads a block that arrives in lumps, has an order of its own. A mask bit of 1 says that a
//! cell is stuck, and the value bit says at what.
//!
//! A row of 512 cells, one of them stuck at 1 where the data has a 0:
//!
//! ```
//! # fn main() -> Result<(), ernavluq::Refusal> {
//! use ernavluq::{metadata_bytes, pointer_read, pointer_write, ROW_BYTES};
//!
//! let data = [0; ROW_BYTES];
//! let (mut mask, mut values) = ([0; ROW_BYTES], [0; ROW_BYTES]);
//! mask[0] = 1 << 3; // cell 3 is stuck ..
//! values[0] = 1 << 3; // .. at 1
//! let mut cells = [0; ROW_BYTES];
//! let mut metadata = [0; metadata_bytes(6)]; // a new row
//! let written = pointer_write(6, &data, &mask, &values, &mut cells, &mut metadata)?;
//! assert_eq!((written.active, written.new_entries), (1, 1));
//! assert_eq!(cells[0], 1 << 3); // a stuck cell keeps its value
//!
//! let mut out = [0xFF; ROW_BYTES];
//! pointer_read(6, &cells, &metadata, &mut out)?;
//! assert_eq!(out, data);
//! # Ok(())
//! # }
//! ```
//!
//! The same calls from C are in `include/ernavluq.h`.
mod answers;
mod raw;
mod refusal;
mod transfer;

pub use answers::{Answer, TransferAnswer};
pub use raw::{
    GridAnswer, GridConvertAnswer, GridReadAnswer, PointerReadAnswer, PointerWriteAnswer, Transfer,
    TransferMissingAnswer, MAX_BLOCK_BYTES,
};
pub use refusal::{
    in_words, Refusal, BIT_PAST_END, LONG_BLOCK, MALFORMED, MISREAD, NO_ENTRY_LEFT, OUT_OF_RANGE,
    SAME_POINTER, SHORT_BLOCK, UNMASKABLE, WRONG_LENGTH,
};
pub use transfer::block_bytes;

/// The bytes of a row's data, mask, values, cells and output: position p is bit p mod 8 of byte p / 8, the lowest first.
pub const ROW_BYTES: usize = 64;

/// The bytes of metadata of a row with `n` entries, 1 to 10.
pub const fn metadata_bytes(n: usize) -> usize {
    n.saturating_mul(10).saturating_add(1).div_ceil(8)
}

/// No block's counters take more bytes: so many are those of 64 rows and 64 columns where `k` is 4 to 7.
pub const MAX_COUNTER_BYTES: usize = counter_bytes(64, 64, 7);

/// The bytes of counters of a block: 1 bit for each row and column where `k` is 1, 2 bits where it is 2 or 3, and 3 bits where it is 4 to 7.
pub const fn counter_bytes(rows: usize, columns: usize, k: usize) -> usize {
    let width = match k {
        1 => 1,
        2 | 3 => 2,
        _ => 3,
    };
    rows.saturating_add(columns)
        .saturating_mul(width)
        .div_ceil(8)
}

fn judged<A: Copy>(answer: A, whole: fn(A) -> Answer) -> Result<A, Refusal> {
    match whole(answer) {
        accepted if accepted.number() == 0 => Ok(answer),
        refused => Err(Refusal { answer: refused }),
    }
}

// Every call below lends each slice with its own length, and the borrows keep what is written apart from all else: this is all that the archive asks.

/// Reads a row of `n` entries: `out` gets for each position its cell, or the replacement bit of the active entry that names it.
///
/// ```
/// let mut out = [0; 64];
/// let refusal = ernavluq::pointer_read(11, &[0; 64], &[0; 8], &mut out).unwrap_err();
/// assert_eq!(refusal.number(), ernavluq::OUT_OF_RANGE);
/// assert_eq!(refusal.to_string(), "refusal 1: n, the rows, the columns, K or the target is out of its range");
/// ```
pub fn pointer_read(
    n: usize,
    cells: &[u8],
    metadata: &[u8],
    out: &mut [u8],
) -> Result<PointerReadAnswer, Refusal> {
    // SAFETY: see above.
    let answer = unsafe {
        raw::ernavluq_pointer_read_r2(
            n,
            cells.as_ptr(),
            cells.len(),
            metadata.as_ptr(),
            metadata.len(),
            out.as_mut_ptr(),
            out.len(),
        )
    };
    judged(answer, Answer::PointerRead)
}

/// Writes `data` to a row of `n` entries: `cells` gets what the cells then hold, and the entries in `metadata` serve what stuck cells show wrong.
/// `metadata` is all zeros for a new row, and from then on what the last accepted write left.
///
/// ```
/// // One entry, which serves position 511 already; cell 3 is stuck at 1 as well.
/// let (mut mask, mut cells, mut metadata) = ([0; 64], [0; 64], [0xFF, 0x03]);
/// mask[0] = 8;
/// let values = mask;
/// let refusal = ernavluq::pointer_write(1, &[0; 64], &mask, &values, &mut cells, &mut metadata).unwrap_err();
/// assert_eq!(refusal.number(), ernavluq::NO_ENTRY_LEFT);
/// assert_eq!((cells, metadata), ([0; 64], [0xFF, 0x03]));
/// ```
pub fn pointer_write(
    n: usize,
    data: &[u8],
    mask: &[u8],
    values: &[u8],
    cells: &mut [u8],
    metadata: &mut [u8],
) -> Result<PointerWriteAnswer, Refusal> {
    let mut answer = PointerWriteAnswer::default();
    // SAFETY: see above.
    unsafe {
        raw::ernavluq_pointer_write_r2(
            &mut answer,
            n,
            data.as_ptr(),
            data.len(),
            mask.as_ptr(),
            mask.len(),
            values.as_ptr(),
            values.len(),
            cells.as_mut_ptr(),
            cells.len(),
            metadata.as_mut_ptr(),
            metadata.len(),
        )
    };
    judged(answer, Answer::PointerWrite)
}

/// Plans a write of `data` to a block with at most `k` levels, one word a row with column j at bit j: `counters` gets how many levels took each row and
/// column. No cells are touched. A [`grid_store`] with these counters and all else the same is then refused only if its cells have another length.
///
/// ```
/// // A chain of three stuck cells is too much for one level, and not for two.
/// let (data, mask, values, mut counters) = ([0; 2], [3, 2], [1, 2], [0]);
/// let refusal = ernavluq::grid_plan(2, 2, 1, &data, &mask, &values, &mut counters).unwrap_err();
/// assert_eq!(refusal.number(), ernavluq::UNMASKABLE);
/// let planned = ernavluq::grid_plan(2, 2, 2, &data, &mask, &values, &mut counters).unwrap();
/// assert_eq!((planned.levels, planned.faults, counters), (2, 3, [0x96]));
/// assert_eq!((planned.wrong, planned.right), (2, 1));
/// ```
pub fn grid_plan(
    rows: usize,
    columns: usize,
    k: usize,
    data: &[u64],
    mask: &[u64],
    values: &[u64],
    counters: &mut [u8],
) -> Result<GridAnswer, Refusal> {
    let mut answer = GridAnswer::default();
    // SAFETY: see above.
    unsafe {
        raw::ernavluq_grid_plan_r2(
            &mut answer,
            rows,
            columns,
            k,
            data.as_ptr(),
            data.len(),
            mask.as_ptr(),
            mask.len(),
            values.as_ptr(),
            values.len(),
            counters.as_mut_ptr(),
            counters.len(),
        )
    };
    judged(answer, Answer::GridPlan)
}

/// Stores `data` in a block by `counters`, those of a [`grid_plan`] or any others: `cells` gets what the cells then hold. A read with the same counters gives
/// the data. The answer's levels are the greatest counter.
///
/// ```
/// # fn main() -> Result<(), ernavluq::Refusal> {
/// use ernavluq::{grid_plan, grid_read, grid_store};
///
/// // One cell, stuck at 0, that should hold a 1.
/// let (mut counters, mut cells, mut out) = ([0], [0], [0]);
/// grid_plan(1, 1, 1, &[1], &[1], &[0], &mut counters)?;
/// let stored = grid_store(1, 1, 1, &[1], &[1], &[0], &counters, &mut cells)?;
/// assert_eq!((stored.levels, stored.faults, stored.wrong, stored.right), (1, 1, 1, 0));
/// grid_read(1, 1, 1, &cells, &counters, &mut out)?;
/// assert_eq!((cells, out), ([0], [1]));
///
/// // For a 0 these counters do not serve: the cell would be read inverted.
/// let refusal = grid_store(1, 1, 1, &[0], &[1], &[0], &counters, &mut cells).unwrap_err();
/// assert_eq!(refusal.to_string(), "refusal 13: by these counters a stuck cell would read wrong for this data");
/// # Ok(())
/// # }
/// ```
#[allow(clippy::too_many_arguments)] // those of the call
pub fn grid_store(
    rows: usize,
    columns: usize,
    k: usize,
    data: &[u64],
    mask: &[u64],
    values: &[u64],
    counters: &[u8],
    cells: &mut [u64],
) -> Result<GridAnswer, Refusal> {
    let mut answer = GridAnswer::default();
    // SAFETY: see above.
    unsafe {
        raw::ernavluq_grid_store_r2(
            &mut answer,
            rows,
            columns,
            k,
            data.as_ptr(),
            data.len(),
            mask.as_ptr(),
            mask.len(),
            values.as_ptr(),
            values.len(),
            counters.as_ptr(),
            counters.len(),
            cells.as_mut_ptr(),
            cells.len(),
        )
    };
    judged(answer, Answer::GridStore)
}

/// Reads a block with the `k` of its plan: `out` gets each cell, inverted where the smaller of its two counters is odd.
///
/// ```
/// let mut out = [0];
/// let refusal = ernavluq::grid_read(1, 1, 2, &[0], &[0x0C], &mut out).unwrap_err();
/// assert_eq!(refusal.to_string(), "refusal 4: counter 1 is above K"); // after that of the one row: column 0
/// assert_eq!(refusal.bad_counter(), Some(1));
/// ```
pub fn grid_read(
    rows: usize,
    columns: usize,
    k: usize,
    cells: &[u64],
    counters: &[u8],
    out: &mut [u64],
) -> Result<GridReadAnswer, Refusal> {
    // SAFETY: see above.
    let answer = unsafe {
        raw::ernavluq_grid_read_r2(
            rows,
            columns,
            k,
            cells.as_ptr(),
            cells.len(),
            counters.as_ptr(),
            counters.len(),
            out.as_mut_ptr(),
            out.len(),
        )
    };
    judged(answer, Answer::GridRead)
}

/// Converts the `counters` of a block from `k` to `to`, an equal or a larger one: `out` gets the same counters, each with its number, in as many bits as they
/// have there. Any cells read with `to` and `out` as they read with `k` and `counters`.
///
/// ```
/// # fn main() -> Result<(), ernavluq::Refusal> {
/// use ernavluq::{counter_bytes, grid_convert, grid_read};
///
/// // Rows 2 and 1, columns 1 and 2: two bits each at K = 3, and three at K = 7.
/// let (counters, mut wide) = ([0x96], [0; counter_bytes(2, 2, 7)]);
/// grid_convert(2, 2, 3, 7, &counters, &mut wide)?;
/// assert_eq!(wide, [0x4A, 0x04]);
/// let (mut before, mut after) = ([0; 2], [0; 2]);
/// grid_read(2, 2, 3, &[1, 3], &counters, &mut before)?;
/// grid_read(2, 2, 7, &[1, 3], &wide, &mut after)?;
/// assert_eq!(before, after);
///
/// // There is no way back.
/// let refusal = grid_convert(2, 2, 7, 3, &wide, &mut [0]).unwrap_err();
/// assert_eq!(refusal.number(), ernavluq::OUT_OF_RANGE);
/// # Ok(())
/// # }
/// ```
pub fn grid_convert(
    rows: usize,
    columns: usize,
    k: usize,
    to: usize,
    counters: &[u8],
    out: &mut [u8],
) -> Result<GridConvertAnswer, Refusal> {
    // SAFETY: see above.
    let answer = unsafe {
        raw::ernavluq_grid_convert_r2(
            rows,
            columns,
            k,
            to,
            counters.as_ptr(),
            counters.len(),
            out.as_mut_ptr(),
            out.len(),
        )
    };
    judged(answer, Answer::GridConvert)
}
