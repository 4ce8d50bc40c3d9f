//! A grid read whose block arrives in lumps (document 02, A1): the record that carries it from call to call, and a
//! whole transfer by a script.

use crate::bits::bytes_that_hold;
use crate::counters::{counter_bits, judged_shape};
use crate::grid::{self, ReadAnswer};

/// The script byte of a new start; those below it are lumps of so many bytes.
pub const NEW_START: u8 = 254;

/// The script byte of a finish.
pub const FINISH: u8 = 255;

/// A word a row has so many bytes.
pub const BYTES_OF_WORD: usize = 8;

/// What is known between two calls: the numbers of the last start, the refusal that it or a lump after it gave (1 or
/// 9, else 0), the bytes of the packed counters and of the whole block, and the bytes taken since that start.
pub struct Record {
    numbers: [u64; 3],
    noted: u8,
    counter_bytes: usize,
    block_bytes: usize,
    taken: Vec<u8>,
}

/// The answer of a finish that names no counter.
fn without_index(number: u8) -> ReadAnswer {
    ReadAnswer { number, index: 0 }
}

impl Record {
    /// The record of a first or a new start, whatever there was before it, and what the start answers: 0 or 1.
    pub fn start(numbers: [u64; 3]) -> (Record, u8) {
        let mut record = Record {
            numbers,
            noted: 0,
            counter_bytes: 0,
            block_bytes: 0,
            taken: Vec::new(),
        };
        match judged_shape(numbers[0], numbers[1], numbers[2]) {
            Err(refusal) => record.noted = refusal,
            Ok(shape) => {
                record.counter_bytes = bytes_that_hold(counter_bits(shape));
                record.block_bytes = record.counter_bytes + BYTES_OF_WORD * shape.rows;
            }
        }
        let answer = record.noted;
        (record, answer)
    }

    /// Takes a lump whole and answers 0, or takes none of it and answers 1 or 9.
    pub fn lump(&mut self, lump: &[u8]) -> u8 {
        if self.noted != 0 {
            return self.noted;
        }
        if self.taken.len() + lump.len() > self.block_bytes {
            self.noted = 9;
            return 9;
        }
        self.taken.extend(lump);
        0
    }

    /// Judges and reads what was taken: answers 0 and fills the output, or answers the refusal and alters nothing. The
    /// record stays as it is, whatever the answer.
    pub fn finish(&self, output: &mut [u64]) -> ReadAnswer {
        if self.noted != 0 {
            return without_index(self.noted);
        }
        if output.len() as u64 != self.numbers[0] {
            return without_index(2);
        }
        if self.taken.len() < self.block_bytes {
            return without_index(8);
        }
        let (counters, rest) = self.taken.split_at(self.counter_bytes);
        let mut cells = Vec::new();
        for row in rest.chunks(BYTES_OF_WORD) {
            let mut word = 0;
            for byte in row.iter().rev() {
                word = word * 256 + u64::from(*byte);
            }
            cells.push(word);
        }
        grid::read(self.numbers, &cells, counters, output)
    }
}

/// What a whole transfer answers: the number and the index of its last finish, and the numbers of all steps before it,
/// the first start's at the front.
#[derive(Clone, Debug, PartialEq, Eq)]
pub struct Answer {
    pub number: u8,
    pub index: usize,
    pub steps: Vec<u8>,
}

/// A whole transfer for the numbers rows, columns and K: the first start, a step a script byte, and the last finish.
/// What a lump asks for has left the bytes, whether or not it was taken.
pub fn transfer(numbers: [u64; 3], bytes: &[u8], script: &[u8], output: &mut [u64]) -> Answer {
    let (mut record, started) = Record::start(numbers);
    let mut steps = vec![started];
    let mut left = bytes;
    for step in script {
        let number = match *step {
            NEW_START => {
                let (anew, started) = Record::start(numbers);
                record = anew;
                started
            }
            FINISH => record.finish(output).number,
            asked => {
                let (lump, rest) = left.split_at(left.len().min(usize::from(asked)));
                left = rest;
                record.lump(lump)
            }
        };
        steps.push(number);
    }
    let ReadAnswer { number, index } = record.finish(output);
    Answer {
        number,
        index,
        steps,
    }
}
