//! All the scenarios, in the order of the table.

use second::random::Random;

use crate::inputs_convert;
use crate::inputs_pointer::{self, Rows};
use crate::scenarios_grid::{self, Seeded, SIZES};
use crate::scenarios_transfer;
use crate::table::Table;
use crate::time::{time, Rounds, INPUTS};

/// The seed of the inputs and of the orders in which they are taken.
const SEED: u64 = 7;

/// The seed of what only stores need, so that all other inputs are those of the time when one write planned and stored.
const STORE_SEED: u64 = 13;

/// The seeds of the same at K = 7, of the conversions and of the transfers: the inputs of before are as they were.
const SEED_OF_SEVEN: u64 = 77;
const STORE_SEED_OF_SEVEN: u64 = 713;
const CONVERT_SEED: u64 = 78;
const TRANSFER_SEED: u64 = 71;

/// The scenarios of plans, stores and reads.
fn grid_lines(table: &mut Table, random: &mut Random, rounds: Rounds) {
    let mut up_to_three = Seeded {
        random,
        of_stores: &mut Random::new(STORE_SEED),
    };
    let mut of_seven = Seeded {
        random: &mut Random::new(SEED_OF_SEVEN),
        of_stores: &mut Random::new(STORE_SEED_OF_SEVEN),
    };
    for size in SIZES {
        for k in [1, 3] {
            scenarios_grid::lines(table, &mut up_to_three, rounds, size, k);
        }
        scenarios_grid::lines(table, &mut of_seven, rounds, size, 7);
    }
}

/// The scenarios of conversions.
fn convert_lines(table: &mut Table, rounds: Rounds) {
    let random = &mut Random::new(CONVERT_SEED);
    for size in SIZES {
        for [k, target] in [[1, 3], [3, 7], [7, 7]] {
            let group = format!("K = {k} to {target}");
            for (name, few) in [("few not 0", true), ("all random", false)] {
                let calls = inputs_convert::conversions(random, INPUTS, size, [k, target], few);
                let converted = time(random, &calls, rounds);
                let scenario = format!("{size} x {size}, {group}, {name}");
                table.line("grid convert", &group, &scenario, converted);
            }
        }
    }
}

/// The scenarios of pointer writes and reads.
fn pointer_lines(table: &mut Table, random: &mut Random, rounds: Rounds) {
    for n in [6, 10] {
        let group = format!("n = {n}");
        for (name, rows) in [
            ("no entry", Rows::NoEntry),
            ("half active", Rows::Half),
            ("all active", Rows::All),
            ("new ones", Rows::New),
            ("refused with 6", Rows::Refused),
        ] {
            let scenario = format!("{group}, {name}");
            let writes = inputs_pointer::writes(random, INPUTS, n, rows);
            let written = time(random, &writes, rounds);
            table.line("pointer write", &group, &scenario, written);
            if rows != Rows::Refused {
                let reads = inputs_pointer::reads(random, &writes);
                let read = time(random, &reads, rounds);
                table.line("pointer read", &group, &scenario, read);
            }
        }
    }
}

/// Times every scenario, and prints the table and its summary; answers what it printed.
pub fn report(rounds: Rounds) -> String {
    let measured = format!(
        "Medians of {} rounds over {INPUTS} inputs (second program: every {}th round); nanoseconds a call.",
        rounds.count, rounds.second_each
    );
    let random = &mut Random::new(SEED);
    let mut table = Table::start(&measured);
    grid_lines(&mut table, random, rounds);
    convert_lines(&mut table, rounds);
    scenarios_transfer::lines(&mut table, &mut Random::new(TRANSFER_SEED), rounds);
    pointer_lines(&mut table, random, rounds);
    table.print_summary();
    table.lines()
}
