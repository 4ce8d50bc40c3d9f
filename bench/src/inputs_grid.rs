//! Inputs for timing the grid calls: blocks with so many stuck cells that are planned, stored and read, blocks whose plan is
//! refused with 7, and stores that are refused with 13.

use second::bits::bytes_that_hold;
use second::call::{GridPlan, GridRead, GridStore};
use second::counters::counter_width;
use second::random::Random;

use crate::answers::Answer;
use crate::contestant::Second;
use crate::input::Input;

/// A place of a cell: its row and its column.
type Place = (usize, usize);

/// A block to be planned, and what its cells hold before it is stored.
pub struct Block {
    pub plan: GridPlan,
    old_cells: Vec<u64>,
}

/// A square block of any data without a stuck cell; old cells and counters hold anything.
fn sound_block(random: &mut Random, size: usize, k: usize) -> Block {
    let width = counter_width(k);
    let line = u64::MAX >> (64 - size);
    let data = random.words(size).iter().map(|word| word & line).collect();
    let values = random.words(size).iter().map(|word| word & line).collect();
    let old_cells = random.words(size);
    let plan = GridPlan {
        numbers: [size as u64, size as u64, k as u64],
        data,
        mask: vec![0; size],
        values,
        counters: random.bytes(bytes_that_hold(2 * size * width)),
    };
    Block { plan, old_cells }
}

/// Makes a cell stuck, at the wrong bit or at the right one.
fn stick(call: &mut GridPlan, (row, column): Place, wrong: bool) {
    let wanted = call.data[row] >> column & 1;
    call.mask[row] |= 1 << column;
    call.values[row] &= !(1 << column);
    call.values[row] |= (wanted ^ u64::from(wrong)) << column;
}

/// Makes cells stuck at any bits until so many are.
fn stick_any(random: &mut Random, call: &mut GridPlan, count: usize) {
    let size = call.data.len();
    while call
        .mask
        .iter()
        .map(|word| word.count_ones() as usize)
        .sum::<usize>()
        < count
    {
        let place = (random.below(size), random.below(size));
        if call.mask[place.0] >> place.1 & 1 == 0 {
            let wrong = random.bit();
            stick(call, place, wrong);
        }
    }
}

/// Places a staircase of so many cells, wrong and right in turn, over these rows and columns in their order.
fn stick_staircase(
    random: &mut Random,
    call: &mut GridPlan,
    length: usize,
    rows: &[usize],
    columns: &[usize],
) {
    let by_row = usize::from(random.bit());
    for step in 0..length {
        let place = (rows[(step + by_row) / 2], columns[(step + 1 - by_row) / 2]);
        stick(call, place, step % 2 == 0);
    }
}

/// Places a chain of 2 K + 1 cells, or a loop of four: either is refused with 7.
fn stick_chain(random: &mut Random, call: &mut GridPlan, k: usize) {
    let rows = random.order(call.data.len());
    let columns = random.order(call.data.len());
    if random.bit() {
        for (row, column) in [(0, 0), (0, 1), (1, 0), (1, 1)] {
            stick(call, (rows[row], columns[column]), row == column);
        }
    } else {
        stick_staircase(random, call, 2 * k + 1, &rows, &columns);
    }
}

/// The number that the second program answers.
fn number(call: &impl Input) -> usize {
    call.clone().made_by::<Second>().number()
}

/// So many blocks of this size with so many cells stuck anywhere, the plans of all of them accepted for K.
pub fn accepted(
    random: &mut Random,
    count: usize,
    size: usize,
    k: usize,
    stuck: usize,
) -> Vec<Block> {
    let mut blocks = Vec::new();
    while blocks.len() < count {
        let mut block = sound_block(random, size, k);
        stick_any(random, &mut block.plan, stuck);
        if number(&block.plan) == 0 {
            blocks.push(block);
        }
    }
    blocks
}

/// So many blocks of this size whose plans take K levels: a staircase of 2 K - 1 cells, its rows and columns in any order.
pub fn deep(random: &mut Random, count: usize, size: usize, k: usize) -> Vec<Block> {
    let mut blocks = Vec::new();
    for _ in 0..count {
        let mut block = sound_block(random, size, k);
        let rows = random.order(size);
        let columns = random.order(size);
        stick_staircase(random, &mut block.plan, 2 * k - 1, &rows, &columns);
        assert_eq!(block.plan.clone().made_by::<Second>().levels, k);
        blocks.push(block);
    }
    blocks
}

/// So many blocks of this size with ten stuck cells, or at K = 7 up to fifteen, the plans of all of them refused with 7.
pub fn refused(random: &mut Random, count: usize, size: usize, k: usize) -> Vec<Block> {
    let mut blocks = Vec::new();
    while blocks.len() < count {
        let mut block = sound_block(random, size, k);
        stick_chain(random, &mut block.plan, k);
        stick_any(random, &mut block.plan, 10);
        if number(&block.plan) == 7 {
            blocks.push(block);
        }
    }
    blocks
}

/// The plans of blocks.
pub fn plans(blocks: &[Block]) -> Vec<GridPlan> {
    blocks.iter().map(|block| block.plan.clone()).collect()
}

/// The stores of blocks with the counters of their accepted plans.
pub fn stores(blocks: &[Block]) -> Vec<GridStore> {
    let mut calls = Vec::new();
    for block in blocks {
        let mut planned = block.plan.clone();
        assert_eq!(planned.made_by::<Second>().number, 0);
        calls.push(GridStore {
            numbers: planned.numbers,
            data: planned.data,
            mask: planned.mask,
            values: planned.values,
            counters: planned.counters,
            cells: block.old_cells.clone(),
        });
    }
    calls
}

/// Stores with one stuck cell turned over since they were planned: refused with 13.
pub fn misreading(random: &mut Random, stores: &[GridStore]) -> Vec<GridStore> {
    let mut calls = stores.to_vec();
    for call in &mut calls {
        let stuck: Vec<usize> = (0..call.mask.len())
            .filter(|row| call.mask[*row] != 0)
            .collect();
        let row = random.pick(&stuck);
        call.values[row] ^= 1 << call.mask[row].trailing_zeros();
        assert_eq!(number(call), 13);
    }
    calls
}

/// The reads of what accepted stores leave; the outputs hold anything.
pub fn reads(random: &mut Random, stores: &[GridStore]) -> Vec<GridRead> {
    let mut calls = Vec::new();
    for store in stores {
        let mut after = store.clone();
        assert_eq!(after.made_by::<Second>().number, 0);
        calls.push(GridRead {
            numbers: after.numbers,
            cells: after.cells,
            counters: after.counters,
            output: random.words(store.data.len()),
        });
    }
    calls
}
