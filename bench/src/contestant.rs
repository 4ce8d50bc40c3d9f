//! The three contestants under one set of names.

use second::call::{GridConvert, GridPlan, GridRead, GridStore};
use second::call::{PointerRead, PointerWrite, Transfer};

use crate::answers::{GridAnswer, GridConvertAnswer, GridReadAnswer};
use crate::answers::{PointerReadAnswer, PointerWriteAnswer, TransferAnswer};
use crate::records::{ArchiveRecord, PlainRecord, Record};
use crate::{archive, peer, script};

/// A number of a call as the machine's own word; they have the same 64 bits.
#[inline(always)]
fn word(number: u64) -> usize {
    number as usize
}

/// The second program's answer to a plan or a store.
#[inline(always)]
fn of_second(answer: second::grid::Answer) -> GridAnswer {
    GridAnswer {
        number: usize::from(answer.number),
        levels: answer.levels,
        faults: answer.stuck,
        wrong: answer.wrong,
        right: answer.right,
        index: answer.index,
    }
}

/// Somebody who makes the six calls, and transfers.
pub trait Contestant {
    /// What carries a transfer from call to call.
    type Record: Record;

    fn pointer_write(call: &mut PointerWrite) -> PointerWriteAnswer;
    fn pointer_read(call: &mut PointerRead) -> PointerReadAnswer;
    fn grid_plan(call: &mut GridPlan) -> GridAnswer;
    fn grid_read(call: &mut GridRead) -> GridReadAnswer;
    fn grid_store(call: &mut GridStore) -> GridAnswer;
    fn grid_convert(call: &mut GridConvert) -> GridConvertAnswer;

    /// A whole transfer, step by step as its script says.
    fn transfer(call: &mut Transfer) -> TransferAnswer {
        script::run::<Self::Record>(call)
    }
}

/// The archive under test.
pub struct Archive;

/// The word-parallel peer.
pub struct Peer;

/// The second program's plain functions.
pub struct Second;

impl Contestant for Archive {
    type Record = ArchiveRecord;

    #[inline(always)]
    fn pointer_write(c: &mut PointerWrite) -> PointerWriteAnswer {
        let n = word(c.n);
        archive::pointer_write(
            n,
            &c.data,
            &c.mask,
            &c.values,
            &mut c.cells,
            &mut c.metadata,
        )
    }

    #[inline(always)]
    fn pointer_read(c: &mut PointerRead) -> PointerReadAnswer {
        archive::pointer_read(word(c.n), &c.cells, &c.metadata, &mut c.output)
    }

    #[inline(always)]
    fn grid_plan(c: &mut GridPlan) -> GridAnswer {
        let numbers = c.numbers.map(word);
        archive::grid_plan(numbers, &c.data, &c.mask, &c.values, &mut c.counters)
    }

    #[inline(always)]
    fn grid_read(c: &mut GridRead) -> GridReadAnswer {
        let numbers = c.numbers.map(word);
        archive::grid_read(numbers, &c.cells, &c.counters, &mut c.output)
    }

    #[inline(always)]
    fn grid_store(c: &mut GridStore) -> GridAnswer {
        let numbers = c.numbers.map(word);
        archive::grid_store(
            numbers,
            &c.data,
            &c.mask,
            &c.values,
            &c.counters,
            &mut c.cells,
        )
    }

    #[inline(always)]
    fn grid_convert(c: &mut GridConvert) -> GridConvertAnswer {
        archive::grid_convert(c.numbers.map(word), &c.counters, &mut c.output)
    }
}

impl Contestant for Peer {
    type Record = peer::transfer::Transfer;

    #[inline(always)]
    fn pointer_write(c: &mut PointerWrite) -> PointerWriteAnswer {
        let n = word(c.n);
        peer::pointer::write(
            n,
            &c.data,
            &c.mask,
            &c.values,
            &mut c.cells,
            &mut c.metadata,
        )
    }

    #[inline(always)]
    fn pointer_read(c: &mut PointerRead) -> PointerReadAnswer {
        let number = peer::pointer::read(word(c.n), &c.cells, &c.metadata, &mut c.output);
        PointerReadAnswer { number }
    }

    #[inline(always)]
    fn grid_plan(c: &mut GridPlan) -> GridAnswer {
        let [rows, columns, k] = c.numbers.map(word);
        peer::grid::plan(
            rows,
            columns,
            k,
            &c.data,
            &c.mask,
            &c.values,
            &mut c.counters,
        )
    }

    #[inline(always)]
    fn grid_read(c: &mut GridRead) -> GridReadAnswer {
        let [rows, columns, k] = c.numbers.map(word);
        peer::grid::read(rows, columns, k, &c.cells, &c.counters, &mut c.output)
    }

    #[inline(always)]
    fn grid_store(c: &mut GridStore) -> GridAnswer {
        let [rows, columns, k] = c.numbers.map(word);
        peer::grid::store(
            rows,
            columns,
            k,
            &c.data,
            &c.mask,
            &c.values,
            &c.counters,
            &mut c.cells,
        )
    }

    #[inline(always)]
    fn grid_convert(c: &mut GridConvert) -> GridConvertAnswer {
        let [rows, columns, k, to] = c.numbers.map(word);
        peer::convert::convert(rows, columns, k, to, &c.counters, &mut c.output)
    }
}

impl Contestant for Second {
    type Record = PlainRecord;

    #[inline(always)]
    fn pointer_write(c: &mut PointerWrite) -> PointerWriteAnswer {
        let answer = second::pointer::write(
            c.n,
            &c.data,
            &c.mask,
            &c.values,
            &mut c.cells,
            &mut c.metadata,
        );
        PointerWriteAnswer {
            number: usize::from(answer.number),
            active: answer.active,
            new_entries: answer.new,
        }
    }

    #[inline(always)]
    fn pointer_read(c: &mut PointerRead) -> PointerReadAnswer {
        let number = second::pointer::read(c.n, &c.cells, &c.metadata, &mut c.output);
        PointerReadAnswer {
            number: usize::from(number),
        }
    }

    #[inline(always)]
    fn grid_plan(c: &mut GridPlan) -> GridAnswer {
        let answer = second::grid::plan(c.numbers, &c.data, &c.mask, &c.values, &mut c.counters);
        of_second(answer)
    }

    #[inline(always)]
    fn grid_read(c: &mut GridRead) -> GridReadAnswer {
        let answer = second::grid::read(c.numbers, &c.cells, &c.counters, &mut c.output);
        GridReadAnswer {
            number: usize::from(answer.number),
            index: answer.index,
        }
    }

    #[inline(always)]
    fn grid_store(c: &mut GridStore) -> GridAnswer {
        let answer = second::grid::store(
            c.numbers,
            &c.data,
            &c.mask,
            &c.values,
            &c.counters,
            &mut c.cells,
        );
        of_second(answer)
    }

    #[inline(always)]
    fn grid_convert(c: &mut GridConvert) -> GridConvertAnswer {
        let answer = second::convert::convert(c.numbers, &c.counters, &mut c.output);
        GridConvertAnswer {
            number: usize::from(answer.number),
            index: answer.index,
        }
    }

    /// It has its own reading of scripts, against which this package's is held too.
    fn transfer(c: &mut Transfer) -> TransferAnswer {
        let answer = second::transfer::transfer(c.numbers, &c.bytes, &c.script, &mut c.output);
        TransferAnswer {
            number: usize::from(answer.number),
            index: answer.index,
            steps: answer.steps,
        }
    }
}
