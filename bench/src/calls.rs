//! The calls on which all three have to agree: the second program's, and rough ones of this package's own.

use second::call::Call;
use second::make::Maker;
use second::random::Random;
use second::{cases_convert, cases_convert_refused, cases_levels, cases_wide_counters};
use second::{cases_grid, cases_pointer, cases_transfer, long};

use crate::{calls_bad_counter, calls_convert, calls_grid, calls_pointer, calls_transfer};

/// The kinds of calls, by their tags less one.
pub const KINDS: [&str; 7] = [
    "pointer write",
    "pointer read",
    "grid plan",
    "grid read",
    "grid store",
    "grid convert",
    "grid transfer",
];

/// The numbers that a call of each kind can answer; a transfer ends with its last finish.
pub const NUMBERS: [&[usize]; 7] = [
    &[0, 1, 2, 3, 4, 5, 6],
    &[0, 1, 2, 3, 4, 5],
    &[0, 1, 2, 3, 7],
    &[0, 1, 2, 3, 4],
    &[0, 1, 2, 3, 4, 13],
    &[0, 1, 2, 3, 4],
    &[0, 1, 2, 3, 4, 8, 9],
];

/// The kind of a call.
pub fn kind_of(call: &Call) -> usize {
    match call {
        Call::PointerWrite(_) => 0,
        Call::PointerRead(_) => 1,
        Call::GridPlan(_) => 2,
        Call::GridRead(_) => 3,
        Call::GridStore(_) => 4,
        Call::GridConvert(_) => 5,
        Call::Transfer(_) => 6,
    }
}

/// Makes calls of every kind without end: all those that the second program lists, then made ones in turns.
pub struct Calls {
    listed: Vec<Call>,
    maker: Maker,
    random: Random,
}

impl Calls {
    /// The calls of a seed.
    pub fn new(seed: u64) -> Calls {
        let cases = [
            cases_pointer::all(),
            cases_pointer::kept_entries(),
            cases_grid::all(),
            cases_levels::all(),
            cases_wide_counters::all(),
            cases_convert::all(),
            cases_convert_refused::all(),
            cases_transfer::all(),
        ];
        let cases = cases.into_iter().flatten();
        Calls {
            listed: cases.map(|(_, call)| call).chain(long::all()).collect(),
            maker: Maker::new(seed),
            random: Random::new(!seed),
        }
    }

    /// The next call.
    pub fn next_call(&mut self) -> Call {
        if let Some(call) = self.listed.pop() {
            return call;
        }
        let random = &mut self.random;
        if random.percent(80) {
            return self.maker.next_call();
        }
        match random.below(14) {
            0 | 1 => Call::PointerWrite(calls_pointer::rough_write(random)),
            2 | 3 => Call::PointerRead(calls_pointer::rough_read(random)),
            4 | 5 => Call::GridPlan(calls_grid::rough_plan(random)),
            6 => Call::GridRead(calls_grid::rough_read(random)),
            7 => Call::GridRead(calls_bad_counter::read(random)),
            8 => Call::GridStore(calls_grid::rough_store(random)),
            9 => Call::GridStore(calls_bad_counter::store(random)),
            10 => Call::GridConvert(calls_convert::rough(random)),
            11 => Call::GridConvert(calls_convert::damaged(random)),
            _ => Call::Transfer(calls_transfer::rough(random)),
        }
    }
}

/// A word in which each bit is 1 once in 2, 4, 8, ... times.
pub fn sparse_word(random: &mut Random, halvings: usize) -> u64 {
    (0..halvings).fold(random.word(), |word, _| word & random.word())
}
