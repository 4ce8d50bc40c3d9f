//! How grid cases are written: their plans, stores and reads, and what is asked of a call.

use std::fmt::Debug;

use bench::answers::{Figures, GridAnswer, GridReadAnswer};
use bench::contestant::Contestant;
use bench::input::Input;
use second::call::{GridPlan, GridRead, GridStore};

/// The answer of a grid read that is accepted.
pub const READ: GridReadAnswer = GridReadAnswer {
    number: 0,
    index: 0,
};

/// The answer of a plan or a store that is accepted with these levels, wrong cells and right cells.
pub fn accepted([levels, wrong, right]: [usize; 3]) -> GridAnswer {
    GridAnswer {
        number: 0,
        levels,
        faults: wrong + right,
        wrong,
        right,
        index: 0,
    }
}

/// A grid plan of data 0 for a square grid with these mask and value words.
pub fn grid_plan(k: u64, mask: &[u64], values: &[u64], counter_bytes: usize) -> GridPlan {
    let size = mask.len();
    GridPlan {
        numbers: [size as u64, size as u64, k],
        data: vec![0; size],
        mask: mask.to_vec(),
        values: values.to_vec(),
        counters: vec![0xa5; counter_bytes],
    }
}

/// The store of a plan's block with these counters; the old cells reach past the last column.
pub fn grid_store(plan: &GridPlan, counters: &[u8]) -> GridStore {
    GridStore {
        numbers: plan.numbers,
        data: plan.data.clone(),
        mask: plan.mask.clone(),
        values: plan.values.clone(),
        counters: counters.to_vec(),
        cells: vec![u64::MAX; plan.data.len()],
    }
}

/// Has the call answered so, and checks that it is unaltered.
pub fn answers_unaltered<C: Contestant, I: Input + PartialEq + Debug>(call: &I, answer: I::Answer) {
    let mut after = call.clone();
    assert_eq!(after.made_by::<C>(), answer);
    assert_eq!(&after, call);
}

/// Has the call refused with this number, every figure 0, and checks that it is unaltered.
pub fn refuses<C: Contestant, I: Input + PartialEq + Debug>(call: &I, number: usize)
where
    I::Answer: Figures,
{
    answers_unaltered::<C, _>(call, I::Answer::refused(number));
}

/// Has the store accepted with these levels, wrong and right cells, and cells, and read back.
pub fn stores<C: Contestant>(call: &GridStore, counts: [usize; 3], cells: &[u64]) {
    let mut after = call.clone();
    assert_eq!(after.made_by::<C>(), accepted(counts));
    assert_eq!(after.cells, cells);
    let mut read = GridRead {
        numbers: after.numbers,
        cells: after.cells,
        counters: after.counters,
        output: vec![u64::MAX; call.data.len()],
    };
    assert_eq!(read.made_by::<C>(), READ);
    assert_eq!(read.output, call.data);
}

/// Has the plan accepted with these levels, wrong and right cells, and counters, and the store by those with these cells.
pub fn grid_accepts<C: Contestant>(
    call: &GridPlan,
    counts: [usize; 3],
    cells: &[u64],
    counters: &[u8],
) {
    let mut after = call.clone();
    assert_eq!(after.made_by::<C>(), accepted(counts));
    assert_eq!(after.counters, counters);
    stores::<C>(&grid_store(&after, counters), counts, cells);
}
