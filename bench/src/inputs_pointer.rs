//! Inputs for timing the pointer calls: rows with no entry, half of them or all active, rows that get new ones or have none left.

use second::bits::{bit_of_bytes, set_bit_of_bytes};
use second::call::{PointerRead, PointerWrite};
use second::pointer::{stored_metadata, Entry, POSITIONS, ROW_BYTES};
use second::random::Random;

use crate::contestant::Second;
use crate::input::Input;

/// What a scenario asks of a row with n entries.
#[derive(Clone, Copy, PartialEq, Eq)]
pub enum Rows {
    NoEntry,
    Half,
    All,
    New,
    Refused,
}

/// The active entries and the positions that need a new one.
fn counts(random: &mut Random, n: usize, rows: Rows) -> (usize, usize) {
    match rows {
        Rows::NoEntry => (0, 0),
        Rows::Half => (n / 2, 0),
        Rows::All => (n, 0),
        Rows::New => {
            let active = random.below(n);
            (active, random.between(1, n - active))
        }
        Rows::Refused => {
            let active = random.between(0, n);
            (active, n - active + random.between(1, 3))
        }
    }
}

/// Makes a cell stuck, at the wrong bit or at the right one.
fn stick(call: &mut PointerWrite, position: usize, wrong: bool) {
    let wanted = bit_of_bytes(&call.data, position);
    set_bit_of_bytes(&mut call.mask, position, true);
    set_bit_of_bytes(&mut call.values, position, wanted != wrong);
}

/// A write of any data. The cells of active entries are stuck at any bits, and three more at the right bit.
fn write(random: &mut Random, n: usize, rows: Rows) -> PointerWrite {
    let (active, unserved) = counts(random, n, rows);
    let positions = random.order(POSITIONS);
    let entries: Vec<Entry> = positions[..active]
        .iter()
        .map(|position| Entry {
            pointer: *position,
            replacement: random.bit(),
        })
        .collect();
    let mut call = PointerWrite {
        n: n as u64,
        data: random.bytes(ROW_BYTES),
        mask: vec![0; ROW_BYTES],
        values: random.bytes(ROW_BYTES),
        cells: random.bytes(ROW_BYTES),
        metadata: stored_metadata(n, &entries),
    };
    for position in &positions[..active] {
        let wrong = random.bit();
        stick(&mut call, *position, wrong);
    }
    let rest = &positions[active..];
    rest[..unserved]
        .iter()
        .for_each(|position| stick(&mut call, *position, true));
    rest[unserved..unserved + 3]
        .iter()
        .for_each(|position| stick(&mut call, *position, false));
    call
}

/// So many writes of a scenario.
pub fn writes(random: &mut Random, count: usize, n: usize, rows: Rows) -> Vec<PointerWrite> {
    let calls: Vec<PointerWrite> = (0..count).map(|_| write(random, n, rows)).collect();
    let expected = if rows == Rows::Refused { 6 } else { 0 };
    for call in &calls {
        assert_eq!(call.clone().made_by::<Second>().number, expected);
    }
    calls
}

/// The reads of what accepted writes store; the outputs hold anything.
pub fn reads(random: &mut Random, writes: &[PointerWrite]) -> Vec<PointerRead> {
    let mut calls = Vec::new();
    for write in writes {
        let mut after = write.clone();
        assert_eq!(after.made_by::<Second>().number, 0);
        calls.push(PointerRead {
            n: after.n,
            cells: after.cells,
            metadata: after.metadata,
            output: random.bytes(ROW_BYTES),
        });
    }
    calls
}
