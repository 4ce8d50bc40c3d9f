//! Grid blocks: a grid of cells with one counter for each row and each column (document 01, "Grid blocks"), whose
//! write is a plan and a store (document 02, A7), which count the wrong and the right stuck cells apart (A9). A store
//! and a read name the first counter above K (A4).

use crate::bits::{bit_of_word, word_of};
use crate::counters::{
    greatest_counter, is_inverted, judged_shape, packed_counters, Counters, Shape,
};
use crate::fault_counts::{right_cells, stuck_cells, wrong_cells};
use crate::judge_grid::{judge_lengths, judge_words, judged_counters, Refusal};
use crate::levels::{states, take_levels};

/// What a plan or a store answers: 0 or the refusal, L (the levels used, the greatest counter), the stuck cells F,
/// those of them that are wrong and right for the data, and of refusal 4 the index of the first counter above K.
#[derive(Clone, Copy, Debug, PartialEq, Eq)]
pub struct Answer {
    pub number: u8,
    pub levels: usize,
    pub stuck: usize,
    pub wrong: usize,
    pub right: usize,
    pub index: usize,
}

/// What a read or a conversion answers: 0 or the refusal, and of refusal 4 the index of the first counter above K.
#[derive(Clone, Copy, Debug, PartialEq, Eq)]
pub struct ReadAnswer {
    pub number: u8,
    pub index: usize,
}

/// The answer of a plan or a store that is refused: every count is 0.
fn refused(refusal: Refusal) -> Answer {
    Answer {
        number: refusal.number,
        levels: 0,
        stuck: 0,
        wrong: 0,
        right: 0,
        index: refusal.index,
    }
}

/// The answer of a plan or a store that is accepted: its L, and the counts of the block's stuck cells.
fn accepted(levels: usize, shape: Shape, data: &[u64], mask: &[u64], values: &[u64]) -> Answer {
    Answer {
        number: 0,
        levels,
        stuck: stuck_cells(mask),
        wrong: wrong_cells(shape.columns, data, mask, values),
        right: right_cells(shape.columns, data, mask, values),
        index: 0,
    }
}

/// Works out the packed counters and the answer of a plan, or the lowest refusal of 1, 2, 3 and 7.
fn planned(
    numbers: [u64; 3],
    data: &[u64],
    mask: &[u64],
    values: &[u64],
    counters_length: usize,
) -> Result<(Vec<u8>, Answer), Refusal> {
    let shape = judged_shape(numbers[0], numbers[1], numbers[2])?;
    let lengths = [data.len(), mask.len(), values.len()];
    judge_lengths(shape, &lengths, counters_length)?;
    judge_words(shape, &[data, mask, values])?;
    let grid = states(shape.columns, data, mask, values);
    let (levels, counters) = take_levels(shape, &grid)?;
    let answer = accepted(levels, shape, data, mask, values);
    Ok((packed_counters(shape, &counters), answer))
}

/// The grid plan for the numbers rows, columns and K: fills the counters if it accepts; after a refusal every count
/// is 0 and nothing is altered.
pub fn plan(
    numbers: [u64; 3],
    data: &[u64],
    mask: &[u64],
    values: &[u64],
    counters: &mut [u8],
) -> Answer {
    match planned(numbers, data, mask, values, counters.len()) {
        Err(refusal) => refused(refusal),
        Ok((packed, answer)) => {
            counters.copy_from_slice(&packed);
            answer
        }
    }
}

/// The cells that a store leaves: a stuck cell keeps its value, a sound one takes its data bit, inverted or not.
fn stored_cells(
    shape: Shape,
    data: &[u64],
    mask: &[u64],
    values: &[u64],
    counters: &Counters,
) -> Vec<u64> {
    let mut cells = Vec::new();
    for row in 0..shape.rows {
        let mut line = Vec::new();
        for column in 0..shape.columns {
            let stored = if bit_of_word(mask[row], column) {
                bit_of_word(values[row], column)
            } else if is_inverted(counters, row, column) {
                !bit_of_word(data[row], column)
            } else {
                bit_of_word(data[row], column)
            };
            line.push(stored);
        }
        cells.push(word_of(&line));
    }
    cells
}

/// What a read of cells with these counters shows.
fn shown_cells(shape: Shape, cells: &[u64], counters: &Counters) -> Vec<u64> {
    let mut shown = Vec::new();
    for (row, word) in cells.iter().enumerate() {
        let mut line = Vec::new();
        for column in 0..shape.columns {
            let bit = bit_of_word(*word, column);
            line.push(if is_inverted(counters, row, column) {
                !bit
            } else {
                bit
            });
        }
        shown.push(word_of(&line));
    }
    shown
}

/// Refusal 13: a stuck cell shows another bit than its data bit.
fn judge_stuck_cells(shape: Shape, data: &[u64], mask: &[u64], shown: &[u64]) -> Result<(), u8> {
    for row in 0..shape.rows {
        for column in 0..shape.columns {
            let stuck = bit_of_word(mask[row], column);
            if stuck && bit_of_word(shown[row], column) != bit_of_word(data[row], column) {
                return Err(13);
            }
        }
    }
    Ok(())
}

/// Works out the cells and the answer of a store, or the lowest refusal of 1, 2, 3, 4 and 13.
fn to_store(
    numbers: [u64; 3],
    data: &[u64],
    mask: &[u64],
    values: &[u64],
    packed: &[u8],
    cells_length: usize,
) -> Result<(Vec<u64>, Answer), Refusal> {
    let shape = judged_shape(numbers[0], numbers[1], numbers[2])?;
    let lengths = [data.len(), mask.len(), values.len(), cells_length];
    judge_lengths(shape, &lengths, packed.len())?;
    judge_words(shape, &[data, mask, values])?;
    let counters = judged_counters(shape, packed)?;
    let cells = stored_cells(shape, data, mask, values, &counters);
    let shown = shown_cells(shape, &cells, &counters);
    judge_stuck_cells(shape, data, mask, &shown)?;
    let levels = greatest_counter(&counters);
    Ok((cells, accepted(levels, shape, data, mask, values)))
}

/// The grid store for the numbers rows, columns and K, with counters of any origin: fills the cells if it accepts;
/// after a refusal every count is 0 and nothing is altered.
pub fn store(
    numbers: [u64; 3],
    data: &[u64],
    mask: &[u64],
    values: &[u64],
    counters: &[u8],
    cells: &mut [u64],
) -> Answer {
    match to_store(numbers, data, mask, values, counters, cells.len()) {
        Err(refusal) => refused(refusal),
        Ok((stored, answer)) => {
            cells.copy_from_slice(&stored);
            answer
        }
    }
}

/// Works out what a read shows, or the lowest refusal of 1, 2, 3 and 4.
fn to_show(
    numbers: [u64; 3],
    cells: &[u64],
    packed: &[u8],
    output_length: usize,
) -> Result<Vec<u64>, Refusal> {
    let shape = judged_shape(numbers[0], numbers[1], numbers[2])?;
    judge_lengths(shape, &[cells.len(), output_length], packed.len())?;
    judge_words(shape, &[cells])?;
    let counters = judged_counters(shape, packed)?;
    Ok(shown_cells(shape, cells, &counters))
}

/// The grid read for the numbers rows, columns and K: answers 0 and fills the output, or answers the
/// refusal and alters nothing.
pub fn read(numbers: [u64; 3], cells: &[u64], counters: &[u8], output: &mut [u64]) -> ReadAnswer {
    match to_show(numbers, cells, counters, output.len()) {
        Err(Refusal { number, index }) => ReadAnswer { number, index },
        Ok(shown) => {
            output.copy_from_slice(&shown);
            ReadAnswer {
                number: 0,
                index: 0,
            }
        }
    }
}
