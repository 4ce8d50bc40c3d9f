//! The answer of any call, and what a start and a lump of a transfer answer.
use crate::raw::{
    GridAnswer, GridConvertAnswer, GridReadAnswer, PointerReadAnswer, PointerWriteAnswer,
    TransferMissingAnswer,
};

/// What a start and a lump of a transfer answer.
#[derive(Clone, Copy, Debug, PartialEq, Eq)]
pub struct TransferAnswer {
    /// 0, or the number of the refusal.
    pub number: usize,
}

/// The answer of any call.
#[derive(Clone, Copy, Debug, PartialEq, Eq)]
pub enum Answer {
    PointerRead(PointerReadAnswer),
    PointerWrite(PointerWriteAnswer),
    GridPlan(GridAnswer),
    GridStore(GridAnswer),
    GridRead(GridReadAnswer),
    GridConvert(GridConvertAnswer),
    TransferStart(TransferAnswer),
    TransferLump(TransferAnswer),
    TransferMissing(TransferMissingAnswer),
    TransferFinish(GridReadAnswer),
}

impl Answer {
    /// 0, or the number of the refusal.
    pub fn number(&self) -> usize {
        match self {
            Answer::PointerRead(answer) => answer.number,
            Answer::PointerWrite(answer) => answer.number,
            Answer::GridPlan(answer) => answer.number,
            Answer::GridStore(answer) => answer.number,
            Answer::GridRead(answer) => answer.number,
            Answer::GridConvert(answer) => answer.number,
            Answer::TransferStart(answer) | Answer::TransferLump(answer) => answer.number,
            Answer::TransferMissing(answer) => answer.number,
            Answer::TransferFinish(answer) => answer.number,
        }
    }
}
