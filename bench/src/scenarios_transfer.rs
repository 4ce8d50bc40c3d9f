//! The scenarios of blocks that arrive in lumps, each beside the ordinary read of the same blocks.

use second::random::Random;

use crate::inputs_grid;
use crate::inputs_transfer::{arrivals, Cut};
use crate::scenarios_grid::SIZES;
use crate::table::Table;
use crate::time::{time_beside, Rounds, INPUTS};

/// So many cells of each block are stuck, so that there are counters above 0.
const STUCK: usize = 3;

/// Prints the lines of each size and K: the transfer, the read that was timed in the same rounds, and how many such reads the
/// transfer takes.
pub fn lines(table: &mut Table, random: &mut Random, rounds: Rounds) {
    for size in SIZES {
        for k in [1, 3, 7] {
            let blocks = inputs_grid::accepted(random, INPUTS, size, k, STUCK);
            let reads = inputs_grid::reads(random, &inputs_grid::stores(&blocks));
            for (cut, group) in [
                (Cut::Nowhere, "1 lump"),
                (Cut::InEight, "8 lumps"),
                (Cut::Everywhere, "single bytes"),
            ] {
                let scenario = format!("{size} x {size}, K = {k}, {group}");
                let both = time_beside(random, &arrivals(&reads, cut), &reads, rounds);
                table.line("grid transfer", group, &scenario, both[0]);
                table.aside("grid read of it", &scenario, both[1]);
                table.times_over("transfer/read", group, &scenario, both);
            }
        }
    }
}
