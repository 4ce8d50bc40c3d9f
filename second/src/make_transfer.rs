//! Makes transfers of blocks: one start or several, whose parts are sent whole, short or over, and whose last one
//! decides the end.

use crate::call::{GridRead, Transfer, MOST_ELEMENTS};
use crate::make_grid::some_lines;
use crate::make_script::{over, short, whole, whole_after_short, Layout, Part, MOST_OF_LUMP};
use crate::random::Random;
use crate::transfer::{BYTES_OF_WORD, FINISH, NEW_START};

/// The bytes of a block as they are sent: the counters, then the words, lowest byte first.
pub fn joined(read: &GridRead) -> Vec<u8> {
    let words = read.cells.iter().flat_map(|word| word.to_le_bytes());
    read.counters.iter().copied().chain(words).collect()
}

/// Another block of the same length to send before: the same bytes, a few of them changed, any bytes, or counters 0 and
/// any cells, which a read accepts.
fn some_other_block(random: &mut Random, read: &GridRead) -> Vec<u8> {
    let mut other = joined(read);
    match random.below(4) {
        0 => other,
        1 => {
            for _ in 0..random.between(1, 3) {
                let place = random.below(other.len());
                other[place] ^= 1 << random.below(8);
            }
            other
        }
        2 => random.bytes(other.len()),
        _ => joined(&GridRead {
            cells: some_lines(random, read.cells.len(), read.numbers[1] as usize),
            counters: vec![0; read.counters.len()],
            ..read.clone()
        }),
    }
}

/// A part that a new start follows: of any kind, mostly with a finish at its end.
fn some_earlier_part(random: &mut Random, layout: Layout, read: &GridRead) -> Part {
    let other = some_other_block(random, read);
    let mut part = match random.below(10) {
        0..=3 => whole(random, layout, &other),
        4..=6 => short(random, layout, &other),
        7 | 8 => over(random, layout, &other),
        _ => Part {
            bytes: vec![],
            steps: vec![],
        },
    };
    if random.percent(60) {
        part.steps.push(FINISH);
    }
    part
}

/// The last part, which decides the end: of a hundred, 66 are whole, 15 short and 14 over, and 5 are odd ones.
fn some_last_part(random: &mut Random, layout: Layout, block: &[u8]) -> Part {
    match random.below(100) {
        0..=53 => whole(random, layout, block),
        54..=65 => whole_after_short(random, layout, block),
        66..=80 => {
            let mut part = short(random, layout, block);
            // The rest of the block is there half the time, but not sent.
            if random.bit() {
                part.bytes = block.to_vec();
            }
            part
        }
        81..=94 => over(random, layout, block),
        _ => some_odd_part(random, block),
    }
}

/// A part with no steps, with no bytes, or with any steps.
fn some_odd_part(random: &mut Random, block: &[u8]) -> Part {
    let bytes = block.to_vec();
    match random.below(4) {
        0 => Part {
            bytes,
            steps: vec![],
        },
        1 => Part {
            bytes: vec![],
            steps: (0..random.below(4)).map(|_| random.byte()).collect(),
        },
        _ => {
            let length = block.len().min(MOST_OF_LUMP) as u8;
            let choices = [0, 1, 2, 7, 8, 9, 253, NEW_START, FINISH, length, length - 1];
            let count = random.between(1, 12);
            Part {
                bytes,
                steps: (0..count).map(|_| random.pick(&choices)).collect(),
            }
        }
    }
}

/// The transfer of a block that a read would read, after none, one or two other starts.
pub fn transfer_of(random: &mut Random, read: &GridRead) -> Transfer {
    let block = joined(read);
    let layout = Layout {
        counter_bytes: read.counters.len(),
        block_bytes: read.counters.len() + BYTES_OF_WORD * read.cells.len(),
    };
    let mut last = some_last_part(random, layout, &block);
    if random.percent(12) {
        ask_for_more(random, &mut last);
    }
    if random.percent(12) {
        let unsent = random.between(1, 20);
        last.bytes.extend(random.bytes(unsent));
    }
    let mut bytes = Vec::new();
    let mut script = Vec::new();
    let starts = match random.below(100) {
        0..=61 => 0,
        62..=87 => 1,
        _ => 2,
    };
    for _ in 0..starts {
        let part = some_earlier_part(random, layout, read);
        let bytes_fit = bytes.len() + part.bytes.len() + last.bytes.len() <= MOST_ELEMENTS;
        let steps_fit = script.len() + part.steps.len() + 1 + last.steps.len() <= MOST_ELEMENTS;
        if bytes_fit && steps_fit {
            bytes.extend(part.bytes);
            script.extend(part.steps);
            script.push(NEW_START);
        }
    }
    bytes.extend(last.bytes);
    script.extend(last.steps);
    bytes.truncate(MOST_ELEMENTS);
    script.truncate(MOST_ELEMENTS);
    Transfer {
        numbers: read.numbers,
        bytes,
        script,
        output: read.output.clone(),
    }
}

/// Gives the last lump a greater size than there are bytes left for it.
fn ask_for_more(random: &mut Random, part: &mut Part) {
    let last_lump = part.steps.iter().rposition(|step| *step < NEW_START);
    if let Some(place) = last_lump {
        let asked = usize::from(part.steps[place]);
        part.steps[place] = random.between(asked, MOST_OF_LUMP) as u8;
    }
}
