//! What the peer's grid calls share: bits past the last column, what is accepted, and stuck cells that would misread.

use super::levels::{rows_with_any, Block, Stuck};
use crate::answers::GridAnswer;

/// Whether a word of a block has a bit past the last column; with 64 columns there is none.
#[inline(always)]
pub fn has_bit_past(columns: usize, block: Block) -> bool {
    if columns == 64 {
        return false;
    }
    let words = block.data.iter().zip(block.mask).zip(block.values);
    let all = words.fold(0, |all, ((data, mask), values)| all | data | mask | values);
    all >> columns != 0
}

/// The answer of a plan or a store that is accepted; where a cell is stuck and not wrong, it is right.
#[inline(always)]
pub fn accepted(levels: usize, stuck: Stuck) -> GridAnswer {
    GridAnswer {
        number: 0,
        levels,
        faults: stuck.all,
        wrong: stuck.wrong,
        right: stuck.all - stuck.wrong,
        index: 0,
    }
}

/// The stuck cells of a block whose rows invert what the function says, or nothing if one of them would read wrong.
#[inline(always)]
pub fn masked_faults(block: Block, inverted: impl Fn(usize) -> u64) -> Option<Stuck> {
    let Block { data, mask, values } = block;
    let mut stuck = Stuck::default();
    let mut misread = 0;
    let mut rest = rows_with_any(mask);
    while rest != 0 {
        let row = rest.trailing_zeros() as usize;
        let wrong = (data[row] ^ values[row]) & mask[row];
        misread |= wrong ^ inverted(row) & mask[row];
        stuck.add(mask[row], wrong);
        rest &= rest - 1;
    }
    if misread == 0 {
        Some(stuck)
    } else {
        None
    }
}
