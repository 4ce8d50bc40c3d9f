//! How a grid case is written: a block, and its plan, its store and a read as cases.

use crate::call::{Call, GridPlan, GridRead, GridStore};
use crate::cases_pointer::Case;

/// What old cells, outputs and old counters hold before a call.
const JUNK_WORD: u64 = 0xa5a5_a5a5_a5a5_a5a5;
const JUNK_BYTE: u8 = 0xa5;

/// A cell: its row and its column.
pub type Place = (usize, usize);

/// What a plan and a store of a case have in common.
#[derive(Clone)]
pub struct Block {
    pub numbers: [u64; 3],
    pub data: Vec<u64>,
    pub mask: Vec<u64>,
    pub values: Vec<u64>,
}

/// Words that are 1 at the given cells.
fn words(rows: usize, ones: &[Place]) -> Vec<u64> {
    let mut words = vec![0; rows];
    for (row, column) in ones {
        words[*row] |= 1 << column;
    }
    words
}

/// A block with the given words for data, mask and values.
pub fn block(numbers: [u64; 3], words: [&[u64]; 3]) -> Block {
    Block {
        numbers,
        data: words[0].to_vec(),
        mask: words[1].to_vec(),
        values: words[2].to_vec(),
    }
}

/// A square block of data 0 with the given cells stuck at 1 and at 0.
pub fn stuck(size: usize, most_levels: u64, at_1: &[Place], at_0: &[Place]) -> Block {
    Block {
        numbers: [size as u64, size as u64, most_levels],
        data: vec![0; size],
        mask: words(size, &[at_1, at_0].concat()),
        values: words(size, at_1),
    }
}

/// The plan of a block as a case, into so many bytes of junk.
pub fn plan(name: &str, block: &Block, counter_bytes: usize) -> Case {
    plan_over(name, block, &vec![JUNK_BYTE; counter_bytes])
}

/// The plan of a block as a case, with these old counters.
pub fn plan_over(name: &str, block: &Block, old_counters: &[u8]) -> Case {
    let call = GridPlan {
        numbers: block.numbers,
        data: block.data.clone(),
        mask: block.mask.clone(),
        values: block.values.clone(),
        counters: old_counters.to_vec(),
    };
    (String::from(name), Call::GridPlan(call))
}

/// The store of a block with the given counters as a case, into junk.
pub fn store(name: &str, block: &Block, counters: &[u8]) -> Case {
    store_over(name, block, counters, &vec![JUNK_WORD; block.data.len()])
}

/// The store of a block with the given counters as a case, with these old cells.
pub fn store_over(name: &str, block: &Block, counters: &[u8], old_cells: &[u64]) -> Case {
    let call = GridStore {
        numbers: block.numbers,
        data: block.data.clone(),
        mask: block.mask.clone(),
        values: block.values.clone(),
        counters: counters.to_vec(),
        cells: old_cells.to_vec(),
    };
    (String::from(name), Call::GridStore(call))
}

/// A read as a case, into junk.
pub fn read(name: &str, numbers: [u64; 3], cells: &[u64], counters: &[u8]) -> Case {
    read_into(name, numbers, cells, counters, cells.len())
}

/// A read as a case, into so many words of junk.
pub fn read_into(
    name: &str,
    numbers: [u64; 3],
    cells: &[u64],
    counters: &[u8],
    output_words: usize,
) -> Case {
    let call = GridRead {
        numbers,
        cells: cells.to_vec(),
        counters: counters.to_vec(),
        output: vec![JUNK_WORD; output_words],
    };
    (String::from(name), Call::GridRead(call))
}

/// The names of a read and of a store of the same block with the same counters.
pub type Names<'a> = [&'a str; 2];

/// The read and the store with these names, both into junk; the read's cells are the data words.
pub fn read_and_store(names: Names, block: &Block, counters: &[u8]) -> Vec<Case> {
    vec![
        read(names[0], block.numbers, &block.data, counters),
        store(names[1], block, counters),
    ]
}
