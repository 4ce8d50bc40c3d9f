//! The archive as include/ernavluq.h declares it: its structs, and its calls by the names that they have in the archive, which end with the release.
//! After each pointer to bytes or words comes their number. A pointer to an answer comes first: there the call writes an answer of more than two numbers.

/// No block has more bytes: 64 rows and 64 columns where K is 4 to 7.
pub const MAX_BLOCK_BYTES: usize = 560;

/// What a read of a pointer row answers.
#[repr(C)]
#[derive(Clone, Copy, Debug, Default, PartialEq, Eq)]
pub struct PointerReadAnswer {
    /// 0, or the number of the refusal.
    pub number: usize,
}

/// What a write of a pointer row answers.
#[repr(C)]
#[derive(Clone, Copy, Debug, Default, PartialEq, Eq)]
pub struct PointerWriteAnswer {
    /// 0, or the number of the refusal.
    pub number: usize,
    /// The active entries afterwards.
    pub active: usize,
    /// How many of them this write made.
    pub new_entries: usize,
}

/// What a plan and a store of a grid block answer.
#[repr(C)]
#[derive(Clone, Copy, Debug, Default, PartialEq, Eq)]
pub struct GridAnswer {
    /// 0, or the number of the refusal.
    pub number: usize,
    /// Of a plan the levels used, of a store its greatest counter.
    pub levels: usize,
    /// The stuck cells of the block: the wrong and the right ones together.
    pub faults: usize,
    /// Those of them that are stuck at the other bit than their data bit.
    pub wrong: usize,
    /// Those that are stuck at their data bit.
    pub right: usize,
    /// With refusal 4 the index of the first counter above K, else 0: so of a plan always 0.
    pub index: usize,
}

/// What a read of a grid block answers, and the finish of a transfer.
#[repr(C)]
#[derive(Clone, Copy, Debug, Default, PartialEq, Eq)]
pub struct GridReadAnswer {
    /// 0, or the number of the refusal.
    pub number: usize,
    /// With refusal 4 the index of the first counter above K, else 0.
    pub index: usize,
}

/// What a conversion of a grid block's counters answers.
#[repr(C)]
#[derive(Clone, Copy, Debug, Default, PartialEq, Eq)]
pub struct GridConvertAnswer {
    /// 0, or the number of the refusal.
    pub number: usize,
    /// With refusal 4 the index of the first counter above K, else 0.
    pub index: usize,
}

/// What a transfer says of the bytes that are missing.
#[repr(C)]
#[derive(Clone, Copy, Debug, Default, PartialEq, Eq)]
pub struct TransferMissingAnswer {
    /// 0, or the number of the refusal.
    pub number: usize,
    /// The bytes of the block that have not come yet, and with a refusal 0.
    pub bytes: usize,
}

/// A transfer of a block that arrives in lumps.
#[repr(C)]
#[derive(Clone, Debug, PartialEq, Eq)]
pub struct Transfer {
    /// The rows that the start was given.
    pub rows: usize,
    /// The columns that it was given.
    pub columns: usize,
    /// The K that it was given.
    pub k: usize,
    /// The bytes taken so far. After a refusal 9 it is more than the block has.
    pub taken: usize,
    /// The bytes taken come first. Those past them count for nothing: a start makes them 0.
    pub bytes: [u8; MAX_BLOCK_BYTES],
}

extern "C" {
    pub fn ernavluq_pointer_read_r2(
        n: usize,
        cells: *const u8,
        cells_length: usize,
        metadata: *const u8,
        metadata_length: usize,
        out: *mut u8,
        out_length: usize,
    ) -> PointerReadAnswer;

    pub fn ernavluq_pointer_write_r2(
        answer: *mut PointerWriteAnswer,
        n: usize,
        data: *const u8,
        data_length: usize,
        mask: *const u8,
        mask_length: usize,
        values: *const u8,
        values_length: usize,
        cells: *mut u8,
        cells_length: usize,
        metadata: *mut u8,
        metadata_length: usize,
    );

    pub fn ernavluq_grid_plan_r2(
        answer: *mut GridAnswer,
        rows: usize,
        columns: usize,
        k: usize,
        data: *const u64,
        data_length: usize,
        mask: *const u64,
        mask_length: usize,
        values: *const u64,
        values_length: usize,
        counters: *mut u8,
        counters_length: usize,
    );

    pub fn ernavluq_grid_store_r2(
        answer: *mut GridAnswer,
        rows: usize,
        columns: usize,
        k: usize,
        data: *const u64,
        data_length: usize,
        mask: *const u64,
        mask_length: usize,
        values: *const u64,
        values_length: usize,
        counters: *const u8,
        counters_length: usize,
        cells: *mut u64,
        cells_length: usize,
    );

    pub fn ernavluq_grid_read_r2(
        rows: usize,
        columns: usize,
        k: usize,
        cells: *const u64,
        cells_length: usize,
        counters: *const u8,
        counters_length: usize,
        out: *mut u64,
        out_length: usize,
    ) -> GridReadAnswer;

    pub fn ernavluq_grid_convert_r2(
        rows: usize,
        columns: usize,
        k: usize,
        to: usize,
        counters: *const u8,
        counters_length: usize,
        out: *mut u8,
        out_length: usize,
    ) -> GridConvertAnswer;

    pub fn ernavluq_transfer_start_r2(
        transfer: *mut Transfer,
        rows: usize,
        columns: usize,
        k: usize,
    ) -> usize;

    pub fn ernavluq_transfer_lump_r2(
        transfer: *mut Transfer,
        bytes: *const u8,
        bytes_length: usize,
    ) -> usize;

    pub fn ernavluq_transfer_missing_r2(transfer: *const Transfer) -> TransferMissingAnswer;

    pub fn ernavluq_transfer_finish_r2(
        transfer: *const Transfer,
        out: *mut u64,
        out_length: usize,
    ) -> GridReadAnswer;
}
