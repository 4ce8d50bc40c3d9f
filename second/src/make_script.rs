//! Makes the scripts of transfers: how the bytes of one start are cut into lumps, and which finishes stand between.

use crate::random::Random;
use crate::transfer::{BYTES_OF_WORD, FINISH};

/// The most bytes that a lump of a script can have.
pub const MOST_OF_LUMP: usize = 253;

/// The bytes between two starts and the steps that send them; steps may ask for fewer bytes or for more.
pub struct Part {
    pub bytes: Vec<u8>,
    pub steps: Vec<u8>,
}

/// Where a block has its parts: the bytes of the counters and of all.
#[derive(Clone, Copy)]
pub struct Layout {
    pub counter_bytes: usize,
    pub block_bytes: usize,
}

/// One lump, or where it would be too long as few as it takes.
fn at_once(count: usize) -> Vec<u8> {
    let mut steps = vec![MOST_OF_LUMP as u8; count / MOST_OF_LUMP];
    steps.push((count % MOST_OF_LUMP) as u8);
    steps
}

/// A place where something could go wrong: beside the end of the counters, inside a word, beside the ends, or any.
fn some_place(random: &mut Random, layout: Layout) -> usize {
    let Layout {
        counter_bytes,
        block_bytes,
    } = layout;
    match random.below(10) {
        0 => counter_bytes - 1,
        1 | 2 => counter_bytes,
        3 => counter_bytes + 1,
        4 => counter_bytes + random.between(1, BYTES_OF_WORD - 1),
        5 => 1,
        6 => block_bytes - 1,
        7 => block_bytes - BYTES_OF_WORD,
        _ => random.below(block_bytes),
    }
}

/// Lumps of every size, of no bytes too.
fn any_lumps(random: &mut Random, count: usize) -> Vec<u8> {
    let largest = random.pick(&[2, 9, 17, MOST_OF_LUMP]);
    let mut steps = Vec::new();
    let mut left = count;
    while left > 0 {
        let lump = random.below(largest + 1).min(left);
        steps.push(lump as u8);
        left -= lump;
    }
    steps
}

/// The steps that send so many bytes of a block, or of more than a block: all at once, byte by byte, in two at some
/// place, the counters and then each word, in equal lumps, or in any.
pub fn lumps(random: &mut Random, layout: Layout, count: usize) -> Vec<u8> {
    match random.below(100) {
        0..=19 => at_once(count),
        20..=34 => vec![1; count],
        35..=59 => {
            let place = some_place(random, layout).min(count);
            [at_once(place), at_once(count - place)].concat()
        }
        60..=69 => {
            let first = layout.counter_bytes.min(count);
            let words = (count - first) / BYTES_OF_WORD;
            let rest = (count - first) % BYTES_OF_WORD;
            let mut steps = at_once(first);
            steps.extend(vec![BYTES_OF_WORD as u8; words]);
            steps.extend(at_once(rest));
            steps
        }
        70..=79 => {
            let size = random.between(2, 12);
            let mut steps = vec![size as u8; count / size];
            steps.extend(at_once(count % size));
            steps
        }
        _ => any_lumps(random, count),
    }
}

/// Puts a step at some place of the steps, often at the end.
fn put_in(random: &mut Random, steps: &mut Vec<u8>, step: u8) {
    let place = if random.percent(40) {
        steps.len()
    } else {
        random.below(steps.len() + 1)
    };
    steps.insert(place, step);
}

/// Puts lumps of no bytes and finishes between the steps, in about half of all scripts.
pub fn put_in_between(random: &mut Random, steps: &mut Vec<u8>) {
    if random.percent(30) {
        for _ in 0..random.between(1, 3) {
            put_in(random, steps, 0);
        }
    }
    if random.percent(30) {
        for _ in 0..random.between(1, 3) {
            put_in(random, steps, FINISH);
        }
    }
}

/// How many bytes to send of a block to stay short: none, all but one, up to some place, or any number.
fn short_count(random: &mut Random, layout: Layout) -> usize {
    match random.below(10) {
        0 => 0,
        1..=3 => layout.block_bytes - 1,
        4..=6 => some_place(random, layout),
        _ => random.below(layout.block_bytes),
    }
}

/// The block sent whole.
pub fn whole(random: &mut Random, layout: Layout, block: &[u8]) -> Part {
    let mut steps = lumps(random, layout, layout.block_bytes);
    put_in_between(random, &mut steps);
    Part {
        bytes: block.to_vec(),
        steps,
    }
}

/// The block sent whole after a finish on the way, which finds it short.
pub fn whole_after_short(random: &mut Random, layout: Layout, block: &[u8]) -> Part {
    let place = short_count(random, layout);
    let mut steps = lumps(random, layout, place);
    steps.extend(vec![FINISH; random.between(1, 2)]);
    let rest = layout.block_bytes - place;
    if random.bit() {
        steps.extend(at_once(rest));
    } else {
        steps.extend(any_lumps(random, rest));
    }
    put_in_between(random, &mut steps);
    Part {
        bytes: block.to_vec(),
        steps,
    }
}

/// The block not sent to its end.
pub fn short(random: &mut Random, layout: Layout, block: &[u8]) -> Part {
    let count = short_count(random, layout);
    let mut steps = lumps(random, layout, count);
    put_in_between(random, &mut steps);
    Part {
        bytes: block[..count].to_vec(),
        steps,
    }
}

/// The block and more: one byte or many, in the lump that ends it or in lumps of their own, then perhaps a finish.
pub fn over(random: &mut Random, layout: Layout, block: &[u8]) -> Part {
    let more = match random.below(4) {
        0 | 1 => 1,
        2 => random.between(2, 9),
        _ => random.between(10, 60),
    };
    let mut steps = match random.below(3) {
        // The block is full, and often finished, before there is too much.
        0 => {
            let mut steps = lumps(random, layout, layout.block_bytes);
            if random.percent(60) {
                steps.push(FINISH);
            }
            steps.extend(any_lumps(random, more));
            steps
        }
        // The lump that exceeds has bytes that belong to the block, or is one of many.
        1 => {
            let place = short_count(random, layout);
            let mut steps = lumps(random, layout, place);
            steps.extend(at_once(layout.block_bytes + more - place));
            steps
        }
        _ => lumps(random, layout, layout.block_bytes + more),
    };
    put_in_between(random, &mut steps);
    let mut bytes = block.to_vec();
    bytes.extend(random.bytes(more));
    Part { bytes, steps }
}
