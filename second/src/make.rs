//! Makes calls of all seven tags, sound and damaged, that depend on a seed alone; those of the six tags that there were
//! before transfers; and those of the five tags and three levels before A8, each as they were made then.

use crate::call::{Call, GridPlan, GridRead, GridStore, PointerWrite};
use crate::counters::MOST_LEVELS;
use crate::random::Random;
use crate::{damage_convert, damage_counters, damage_grid, damage_pointer, damage_transfer};
use crate::{grid, pointer};
use crate::{make_convert, make_grid, make_plan, make_pointer, make_store, make_transfer};

/// How many rows, plans and grids are remembered for later calls.
const MOST_KEPT: usize = 6;

/// The greatest K before A8; stored calls were made with it.
const MOST_LEVELS_BEFORE: usize = 3;

/// So many stores, reads and conversions in a hundred get counters above K before any other damage.
const PERCENT_WITH_BAD_COUNTERS: usize = 20;

/// So many calls in a hundred are transfers, where there are any.
const PERCENT_OF_TRANSFERS: usize = 43;

/// So many transfers in a hundred get a block with damage, other numbers, and an output of another length.
const PERCENT_WITH_DAMAGED_BLOCK: usize = 20;
const PERCENT_WITH_OTHER_NUMBERS: usize = 12;
const PERCENT_WITH_OTHER_OUTPUT: usize = 10;

/// Makes calls one after another and remembers what accepted writes, plans and stores left.
pub struct Maker {
    random: Random,
    greatest: usize,
    has_transfers: bool,
    rows: Vec<PointerWrite>,
    plans: Vec<GridPlan>,
    grids: Vec<GridStore>,
}

/// Remembers one more, in the place of some other if there are many.
fn keep<T>(random: &mut Random, kept: &mut Vec<T>, one: T) {
    if kept.len() < MOST_KEPT {
        kept.push(one);
    } else {
        let place = random.below(MOST_KEPT);
        kept[place] = one;
    }
}

/// One that is remembered, so many times in a hundred if there is any.
fn recalled<T: Clone>(random: &mut Random, kept: &[T], percent: usize) -> Option<T> {
    if !kept.is_empty() && random.percent(percent) {
        Some(kept[random.below(kept.len())].clone())
    } else {
        None
    }
}

/// How many kinds of damage a call takes: mostly none or one.
fn damages(random: &mut Random) -> usize {
    match random.below(100) {
        0..=47 => 0,
        48..=89 => 1,
        _ => random.between(2, 3),
    }
}

impl Maker {
    /// A maker of calls of all tags with K up to 7, which depend on the seed alone.
    pub fn new(seed: u64) -> Maker {
        Maker {
            has_transfers: true,
            ..Maker::of_whole_blocks(seed)
        }
    }

    /// A maker of the calls of before A1, with K up to 7 and without transfers, byte for byte as they were.
    pub fn of_whole_blocks(seed: u64) -> Maker {
        Maker::up_to(seed, MOST_LEVELS as usize)
    }

    /// A maker of the calls of before A8, with K up to 3 and without conversions, byte for byte as they were.
    pub fn of_three_levels(seed: u64) -> Maker {
        Maker::up_to(seed, MOST_LEVELS_BEFORE)
    }

    /// A maker of calls whose sound ones have K up to the greatest.
    fn up_to(seed: u64, greatest: usize) -> Maker {
        Maker {
            random: Random::new(seed),
            greatest,
            has_transfers: false,
            rows: Vec::new(),
            plans: Vec::new(),
            grids: Vec::new(),
        }
    }

    /// The next call.
    pub fn next_call(&mut self) -> Call {
        if self.has_transfers && self.random.percent(PERCENT_OF_TRANSFERS) {
            return self.transfer();
        }
        let kind = self.random.below(100);
        if self.greatest == MOST_LEVELS_BEFORE {
            return match kind {
                0..=22 => self.pointer_write(),
                23..=38 => self.pointer_read(),
                39..=60 => self.grid_plan(),
                61..=84 => self.grid_store(),
                _ => self.grid_read(),
            };
        }
        match kind {
            0..=12 => self.pointer_write(),
            13..=23 => self.pointer_read(),
            24..=46 => self.grid_plan(),
            47..=70 => self.grid_store(),
            71..=84 => self.grid_read(),
            _ => self.grid_convert(),
        }
    }

    /// Whether what a call left is remembered: it was accepted, and its K is one that this maker's calls have.
    fn is_kept(&self, number: u8, numbers: [u64; 3]) -> bool {
        number == 0 && numbers[2] <= self.greatest as u64
    }

    /// A pointer write; what it stores is remembered if it is accepted.
    fn pointer_write(&mut self) -> Call {
        let random = &mut self.random;
        let mut call = match recalled(random, &self.rows, 35) {
            Some(row) => make_pointer::further_write(random, row),
            None => make_pointer::write_of_some_row(random),
        };
        for _ in 0..damages(random) {
            damage_pointer::damage_write(random, &mut call);
        }
        let mut after = call.clone();
        let answer = pointer::write(
            after.n,
            &after.data,
            &after.mask,
            &after.values,
            &mut after.cells,
            &mut after.metadata,
        );
        if answer.number == 0 {
            keep(random, &mut self.rows, after);
        }
        Call::PointerWrite(call)
    }

    /// A pointer read, often of what a write stored.
    fn pointer_read(&mut self) -> Call {
        let random = &mut self.random;
        let mut call = match recalled(random, &self.rows, 50) {
            Some(row) => make_pointer::read_of(random, row),
            None => make_pointer::read_of_some_row(random),
        };
        for _ in 0..damages(random) {
            damage_pointer::damage_read(random, &mut call);
        }
        Call::PointerRead(call)
    }

    /// A grid plan; its counters are remembered if it is accepted.
    fn grid_plan(&mut self) -> Call {
        let random = &mut self.random;
        let greatest = self.greatest;
        let mut call = match recalled(random, &self.plans, 20) {
            Some(plan) => make_plan::further_plan(random, plan),
            None => make_plan::plan_of_some_grid(random, greatest),
        };
        for _ in 0..damages(random) {
            damage_grid::damage_plan(random, greatest, &mut call);
        }
        let mut after = call.clone();
        let answer = grid::plan(
            after.numbers,
            &after.data,
            &after.mask,
            &after.values,
            &mut after.counters,
        );
        if self.is_kept(answer.number, after.numbers) {
            keep(&mut self.random, &mut self.plans, after);
        }
        Call::GridPlan(call)
    }

    /// A grid store, often with the counters of a plan; what it stores is remembered if it is accepted.
    fn grid_store(&mut self) -> Call {
        let random = &mut self.random;
        let greatest = self.greatest;
        let mut call = match recalled(random, &self.plans, 40) {
            Some(plan) => make_store::store_of_plan(random, plan),
            None => make_store::some_store(random, greatest),
        };
        if random.percent(15) {
            make_store::change_idle_counters(random, &mut call);
        }
        if random.percent(PERCENT_WITH_BAD_COUNTERS) {
            let numbers = &mut call.numbers;
            damage_counters::put_bad_counters(random, greatest, numbers, &mut call.counters);
        }
        for _ in 0..damages(random) {
            damage_grid::damage_store(random, greatest, &mut call);
        }
        let mut after = call.clone();
        let answer = grid::store(
            after.numbers,
            &after.data,
            &after.mask,
            &after.values,
            &after.counters,
            &mut after.cells,
        );
        if self.is_kept(answer.number, after.numbers) {
            keep(&mut self.random, &mut self.grids, after);
        }
        Call::GridStore(call)
    }

    /// A sound read, often of what a store left, but at times with counters above K.
    fn some_read(&mut self) -> GridRead {
        let random = &mut self.random;
        let greatest = self.greatest;
        let mut call = match recalled(random, &self.grids, 45) {
            Some(grid) => make_grid::read_of(random, grid),
            None => make_grid::read_of_some_grid(random, greatest),
        };
        if random.percent(PERCENT_WITH_BAD_COUNTERS) {
            let numbers = &mut call.numbers;
            damage_counters::put_bad_counters(random, greatest, numbers, &mut call.counters);
        }
        call
    }

    /// A grid read.
    fn grid_read(&mut self) -> Call {
        let mut call = self.some_read();
        let random = &mut self.random;
        let greatest = self.greatest;
        for _ in 0..damages(random) {
            damage_grid::damage_read(random, greatest, &mut call);
        }
        Call::GridRead(call)
    }

    /// A grid convert, often of the counters of a plan or a store.
    fn grid_convert(&mut self) -> Call {
        let random = &mut self.random;
        let planned = recalled(random, &self.plans, 35).map(|plan| (plan.numbers, plan.counters));
        let stored = recalled(random, &self.grids, 30).map(|grid| (grid.numbers, grid.counters));
        let mut packed = match planned.or(stored) {
            Some(packed) => packed,
            None => make_convert::some_packed(random),
        };
        if random.percent(PERCENT_WITH_BAD_COUNTERS) {
            damage_counters::put_bad_counters(random, self.greatest, &mut packed.0, &mut packed.1);
        }
        let mut call = make_convert::conversion_of(random, packed);
        for _ in 0..damages(random) {
            damage_convert::damage_convert(random, &mut call);
        }
        Call::GridConvert(call)
    }

    /// A transfer of a block that a read could have.
    fn transfer(&mut self) -> Call {
        let mut read = self.some_read();
        let random = &mut self.random;
        if random.percent(PERCENT_WITH_DAMAGED_BLOCK) {
            for _ in 0..random.between(1, 2) {
                damage_transfer::damage_block(random, &mut read);
            }
        }
        let mut call = make_transfer::transfer_of(random, &read);
        if random.percent(PERCENT_WITH_OTHER_OUTPUT) {
            damage_transfer::damage_output(random, &mut call);
        }
        if random.percent(PERCENT_WITH_OTHER_NUMBERS) {
            damage_transfer::damage_numbers(random, &mut call);
        }
        Call::Transfer(call)
    }
}
