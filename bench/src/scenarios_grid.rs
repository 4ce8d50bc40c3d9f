//! The scenarios of grid plans, stores and reads.

use second::random::Random;

use crate::inputs_grid::{self, Block};
use crate::table::Table;
use crate::time::{time, Rounds, INPUTS};

/// The sides of the blocks.
pub const SIZES: [usize; 3] = [8, 16, 64];

/// The deepest K.
const DEEPEST: usize = 7;

/// The numbers that inputs and their orders are made of; what only stores need has its own, so that the other inputs are
/// those of the time when one write planned and stored.
pub struct Seeded<'a> {
    pub random: &'a mut Random,
    pub of_stores: &'a mut Random,
}

/// Prints the lines of blocks that are planned, stored and read.
fn lines_of_blocks(
    table: &mut Table,
    seeded: &mut Seeded,
    rounds: Rounds,
    group: &str,
    scenario: &str,
    blocks: &[Block],
) {
    let stores = inputs_grid::stores(blocks);
    let reads = inputs_grid::reads(seeded.random, &stores);
    let planned = time(seeded.random, &inputs_grid::plans(blocks), rounds);
    table.line("grid plan", group, scenario, planned);
    let stored = time(seeded.of_stores, &stores, rounds);
    table.line("grid store", group, scenario, stored);
    table.aside("grid plan and store", scenario, planned + stored);
    let read = time(seeded.random, &reads, rounds);
    table.line("grid read", group, scenario, read);
}

/// Prints the lines of one size and K: no stuck cell, three and ten, then what is refused, and with the deepest K, but for
/// the smallest blocks, staircases of as many levels.
pub fn lines(table: &mut Table, seeded: &mut Seeded, rounds: Rounds, size: usize, k: usize) {
    let group = format!("K = {k}");
    let block = format!("{size} x {size}, {group}");
    let mut blocks = Vec::new();
    for stuck in [0, 3, 10] {
        let scenario = format!("{block}, {stuck} stuck");
        blocks = inputs_grid::accepted(seeded.random, INPUTS, size, k, stuck);
        lines_of_blocks(table, seeded, rounds, &group, &scenario, &blocks);
    }
    let refused = inputs_grid::refused(seeded.random, INPUTS, size, k);
    let planned = time(seeded.random, &inputs_grid::plans(&refused), rounds);
    let scenario = format!("{block}, refused with 7");
    table.line("grid plan", &group, &scenario, planned);
    let stores = inputs_grid::stores(&blocks);
    let misreading = inputs_grid::misreading(seeded.of_stores, &stores);
    let stored = time(seeded.of_stores, &misreading, rounds);
    let scenario = format!("{block}, refused with 13");
    table.line("grid store", &group, &scenario, stored);
    if k == DEEPEST && size > SIZES[0] {
        let scenario = format!("{block}, L = {k}");
        let blocks = inputs_grid::deep(seeded.random, INPUTS, size, k);
        lines_of_blocks(table, seeded, rounds, &group, &scenario, &blocks);
    }
}
