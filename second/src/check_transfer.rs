//! Checks transfers a second way (document 02, A1): by sums over the script in place of a record, by bits of the joined
//! bytes in place of words, and by the same bytes in other lumps.

use crate::call::Transfer;
use crate::check_index::{check_index, counters_in_bytes};
use crate::grid::{self, ReadAnswer};
use crate::transfer::{Answer, Record};

/// The width of counters by K, from 1.
const WIDTHS: [u64; 7] = [1, 2, 2, 3, 3, 3, 3];

/// The bytes of the counters and of the whole block, or nothing if a number is out of range.
fn lengths(numbers: [u64; 3]) -> Option<(usize, usize)> {
    let [rows, columns, most_levels] = numbers;
    if rows == 0 || rows > 64 || columns == 0 || columns > 64 {
        return None;
    }
    if most_levels == 0 || most_levels > 7 {
        return None;
    }
    let bits = (rows + columns) * WIDTHS[most_levels as usize - 1];
    let counters = bits.div_ceil(8);
    Some((counters as usize, (counters + 8 * rows) as usize))
}

/// How many bytes the lumps before a place of the script have asked for, at most as many as there are.
fn asked_before(call: &Transfer, place: usize) -> usize {
    let lumps = call.script[..place].iter().filter(|step| **step <= 253);
    let asked: usize = lumps.map(|step| usize::from(*step)).sum();
    asked.min(call.bytes.len())
}

/// The bytes of all lumps between the last start before a place of the script and that place, taken or not.
fn sent_before(call: &Transfer, place: usize) -> &[u8] {
    let last_start = call.script[..place].iter().rposition(|step| *step == 254);
    let first = last_start.map_or(0, |start| asked_before(call, start));
    &call.bytes[first..asked_before(call, place)]
}

/// The word of a row, by the bits of the bytes that follow the counters.
fn word_in_bytes(bytes: &[u8], row: usize) -> u64 {
    let mut word = 0;
    for column in 0..64 {
        let position = 64 * row + column;
        word |= u64::from(bytes[position / 8] >> (position % 8) & 1) << column;
    }
    word
}

/// What an accepted read shows: the lowest bit of the smaller counter turns the cell's bit over.
fn shown_by_bits(numbers: [u64; 3], counters: &[u8], cells: &[u64]) -> Vec<u64> {
    let lines = counters_in_bytes(numbers, counters);
    let (rows, columns) = lines.split_at(cells.len());
    let mut shown = cells.to_vec();
    for (row, word) in shown.iter_mut().enumerate() {
        for (column, counter) in columns.iter().enumerate() {
            *word ^= (rows[row].min(*counter) & 1) << column;
        }
    }
    shown
}

/// What the ordinary read of a whole block answers, and what it shows if it accepts.
fn ordinary_read(
    numbers: [u64; 3],
    counter_bytes: usize,
    block: &[u8],
) -> Result<(ReadAnswer, Vec<u64>), String> {
    let (counters, rest) = block.split_at(counter_bytes);
    let cells: Vec<u64> = (0..numbers[0] as usize)
        .map(|row| word_in_bytes(rest, row))
        .collect();
    let mut shown = vec![0; cells.len()];
    let answer = grid::read(numbers, &cells, counters, &mut shown);
    check_index(numbers, counters, answer.number, answer.index)?;
    if answer.number == 0 && shown != shown_by_bits(numbers, counters, &cells) {
        return Err(format!("a read shows other bits: {block:x?}"));
    }
    Ok((answer, shown))
}

/// What a finish at a place of the script has to answer, and the output it fills if it accepts.
fn finish_at(call: &Transfer, place: usize) -> Result<(ReadAnswer, Vec<u64>), String> {
    let sent = sent_before(call, place);
    let number = match lengths(call.numbers) {
        None => 1,
        Some((_, block_bytes)) if sent.len() > block_bytes => 9,
        Some(_) if call.output.len() as u64 != call.numbers[0] => 2,
        Some((_, block_bytes)) if sent.len() < block_bytes => 8,
        Some((counter_bytes, _)) => return ordinary_read(call.numbers, counter_bytes, sent),
    };
    Ok((ReadAnswer { number, index: 0 }, vec![]))
}

/// What the step at a place of the script has to answer.
fn number_at(call: &Transfer, place: usize) -> Result<u8, String> {
    let Some((_, block_bytes)) = lengths(call.numbers) else {
        return Ok(1);
    };
    match call.script[place] {
        254 => Ok(0),
        255 => Ok(finish_at(call, place)?.0.number),
        // Sums only grow until a new start, so a lump that exceeds the block makes all that follows exceed it.
        _ if sent_before(call, place + 1).len() > block_bytes => Ok(9),
        _ => Ok(0),
    }
}

/// What the output has to hold: what the last accepted finish shows, or what it held before if there is none.
fn output_at_end(call: &Transfer, output_before: &[u64]) -> Result<Vec<u64>, String> {
    for place in (0..=call.script.len()).rev() {
        let is_finish = call.script.get(place).is_none_or(|step| *step == 255);
        if is_finish {
            let (answer, shown) = finish_at(call, place)?;
            if answer.number == 0 {
                return Ok(shown);
            }
        }
    }
    Ok(output_before.to_vec())
}

/// Checks a transfer already made: the number of every step, the last finish, the output, and other lumps.
pub fn check_transfer(
    call: &Transfer,
    output_before: &[u64],
    answer: &Answer,
) -> Result<(), String> {
    let mut steps = vec![u8::from(lengths(call.numbers).is_none())];
    for place in 0..call.script.len() {
        steps.push(number_at(call, place)?);
    }
    let last = ReadAnswer {
        number: answer.number,
        index: answer.index,
    };
    let found = if answer.steps != steps {
        "the steps answer otherwise"
    } else if last != finish_at(call, call.script.len())?.0 {
        "the last finish answers otherwise"
    } else if call.output != output_at_end(call, output_before)? {
        "the output is not that of the last accepted finish"
    } else {
        return check_other_lumps(call, last);
    };
    Err(format!("{found}: {call:x?}, {answer:?}, {steps:?}"))
}

/// The bytes sent since the last start, in other lumps: at once, each by itself, each after a lump of none, and in
/// two. The finish after them, made twice, is that of the transfer.
fn check_other_lumps(call: &Transfer, last: ReadAnswer) -> Result<(), String> {
    let sent = sent_before(call, call.script.len());
    let none: &[u8] = &[];
    let singles: Vec<&[u8]> = sent.chunks(1).collect();
    let with_none: Vec<&[u8]> = sent.chunks(1).flat_map(|byte| [none, byte]).collect();
    let (first, second) = sent.split_at(sent.len() / 2);
    for lumps in [vec![sent], singles, with_none, vec![first, second, none]] {
        let (mut record, _) = Record::start(call.numbers);
        for lump in &lumps {
            record.lump(lump);
        }
        let junk: Vec<u64> = call.output.iter().map(|word| !word).collect();
        for _ in 0..2 {
            let mut output = junk.clone();
            let answer = record.finish(&mut output);
            let right = if last.number == 0 {
                &call.output
            } else {
                &junk
            };
            if answer != last || output != *right {
                let count = lumps.len();
                return Err(format!("in {count} lumps {answer:?}: {call:x?}, {last:?}"));
            }
        }
    }
    Ok(())
}
