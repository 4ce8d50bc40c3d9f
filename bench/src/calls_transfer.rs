//! Rough transfers: scripts in which starts, finishes and lumps stand in any order, on the bytes of one block, of two or of
//! three, and at times with other numbers or another output.

use second::call::{GridRead, Transfer};
use second::make_transfer::joined;
use second::random::Random;
use second::transfer::{FINISH, NEW_START};

use crate::calls_bad_counter::put_bad_counters;
use crate::calls_grid::{rough_numbers, rough_read_of};
use crate::script::sends;

/// The greatest rows, columns and K.
const MOST: [u64; 3] = [64, 64, 7];

/// A block of any bits: mostly of few rows, so that short lumps are a good part of it, and at times with counters above K.
fn some_block(random: &mut Random) -> GridRead {
    let mut numbers = rough_numbers(random);
    if random.percent(70) {
        numbers[0] = random.between(1, 4) as u64;
    }
    let mut block = rough_read_of(random, numbers);
    if random.percent(15) {
        put_bad_counters(random, &mut block.numbers, &mut block.counters);
    }
    block
}

/// How many bytes a lump asks for: none, a few, up to the end of the block, which is so far off, or beside it, or any number.
fn some_length(random: &mut Random, to_end: usize, counter_bytes: usize) -> usize {
    match random.below(16) {
        0 => 0,
        1 | 2 => random.between(1, 9),
        3 => counter_bytes,
        4 => to_end - 1,
        5 => to_end + 1,
        6 => random.below(254),
        7 | 8 => random.between(1, to_end),
        _ => to_end,
    }
}

/// Steps in any order. Where a block ends, a finish or a new start is likely.
fn some_script(random: &mut Random, block_bytes: usize, counter_bytes: usize) -> Vec<u8> {
    let mut script = Vec::new();
    let mut sent = 0;
    for _ in 0..random.between(0, 14) {
        let at_end = sent > 0 && sent % block_bytes == 0;
        match random.below(10) {
            0 => script.push(NEW_START),
            1 | 2 => script.push(FINISH),
            3..=5 if at_end => script.push(NEW_START),
            6 | 7 if at_end => script.push(FINISH),
            _ => {
                let to_end = block_bytes - sent % block_bytes;
                let length = some_length(random, to_end, counter_bytes);
                script.extend(sends(length));
                sent += length;
            }
        }
    }
    script
}

/// Gives a transfer another number, mostly one out of range, or exchanges rows and columns.
fn change_numbers(random: &mut Random, call: &mut Transfer) {
    let place = random.below(3);
    match random.below(6) {
        0 => call.numbers.swap(0, 1),
        1 => call.numbers[2] = random.between(1, 7) as u64,
        2 => call.numbers[place] = random.word(),
        _ => call.numbers[place] = random.pick(&[0, MOST[place] + 1, u64::MAX]),
    }
}

/// A transfer by any script.
pub fn rough(random: &mut Random) -> Transfer {
    let block = some_block(random);
    let mut bytes = joined(&block);
    let script = some_script(random, bytes.len(), block.counters.len());
    for _ in 0..random.pick(&[0, 1, 1, 1, 2]) {
        bytes.extend(joined(&rough_read_of(random, block.numbers)));
    }
    let mut call = Transfer {
        numbers: block.numbers,
        bytes,
        script,
        output: block.output,
    };
    if random.percent(8) {
        change_numbers(random, &mut call);
    }
    if random.percent(8) {
        let length = call.output.len();
        let other = random.pick(&[0, length - 1, length + 1, 64, 65]);
        call.output.resize(other, u64::MAX);
    }
    call
}
