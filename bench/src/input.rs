//! The calls as inputs that any contestant can be given, again and again.

use second::call::{GridConvert, GridPlan, GridRead, GridStore};
use second::call::{PointerRead, PointerWrite, Transfer};

use crate::answers::{Answer, GridAnswer, GridConvertAnswer, GridReadAnswer};
use crate::answers::{PointerReadAnswer, PointerWriteAnswer, TransferAnswer};
use crate::contestant::Contestant;

/// The arguments of one kind of call.
pub trait Input: Clone {
    /// What this kind of call answers.
    type Answer: Answer;

    /// Has a contestant make the call.
    fn made_by<C: Contestant>(&mut self) -> Self::Answer;

    /// Gives the buffers that a call may change what they held before.
    fn restore(&mut self, before: &Self);
}

impl Input for PointerWrite {
    type Answer = PointerWriteAnswer;

    #[inline(always)]
    fn made_by<C: Contestant>(&mut self) -> PointerWriteAnswer {
        C::pointer_write(self)
    }

    fn restore(&mut self, before: &PointerWrite) {
        self.cells.copy_from_slice(&before.cells);
        self.metadata.copy_from_slice(&before.metadata);
    }
}

impl Input for PointerRead {
    type Answer = PointerReadAnswer;

    #[inline(always)]
    fn made_by<C: Contestant>(&mut self) -> PointerReadAnswer {
        C::pointer_read(self)
    }

    fn restore(&mut self, before: &PointerRead) {
        self.output.copy_from_slice(&before.output);
    }
}

impl Input for GridPlan {
    type Answer = GridAnswer;

    #[inline(always)]
    fn made_by<C: Contestant>(&mut self) -> GridAnswer {
        C::grid_plan(self)
    }

    fn restore(&mut self, before: &GridPlan) {
        self.counters.copy_from_slice(&before.counters);
    }
}

impl Input for GridRead {
    type Answer = GridReadAnswer;

    #[inline(always)]
    fn made_by<C: Contestant>(&mut self) -> GridReadAnswer {
        C::grid_read(self)
    }

    fn restore(&mut self, before: &GridRead) {
        self.output.copy_from_slice(&before.output);
    }
}

impl Input for GridStore {
    type Answer = GridAnswer;

    #[inline(always)]
    fn made_by<C: Contestant>(&mut self) -> GridAnswer {
        C::grid_store(self)
    }

    fn restore(&mut self, before: &GridStore) {
        self.cells.copy_from_slice(&before.cells);
    }
}

impl Input for GridConvert {
    type Answer = GridConvertAnswer;

    #[inline(always)]
    fn made_by<C: Contestant>(&mut self) -> GridConvertAnswer {
        C::grid_convert(self)
    }

    fn restore(&mut self, before: &GridConvert) {
        self.output.copy_from_slice(&before.output);
    }
}

impl Input for Transfer {
    type Answer = TransferAnswer;

    #[inline(always)]
    fn made_by<C: Contestant>(&mut self) -> TransferAnswer {
        C::transfer(self)
    }

    fn restore(&mut self, before: &Transfer) {
        self.output.copy_from_slice(&before.output);
    }
}
