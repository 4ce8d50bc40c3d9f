//! Rough pointer calls: any bits, mostly in range.

use second::bits::bytes_that_hold;
use second::call::{PointerRead, PointerWrite};
use second::random::Random;

use crate::calls::sparse_word;

/// Sparse bytes for a row.
fn sparse_row(random: &mut Random, halvings: usize) -> Vec<u8> {
    (0..8)
        .flat_map(|_| sparse_word(random, halvings).to_le_bytes())
        .collect()
}

/// Metadata of any bits, often with the full bit, often sparse, mostly without spare bits.
fn rough_metadata(random: &mut Random, n: usize) -> Vec<u8> {
    let halvings = random.pick(&[0, 0, 2, 4, 6]);
    let used = 10 * n + 1;
    let low = u128::from(sparse_word(random, halvings));
    let mut bits = low | u128::from(sparse_word(random, halvings)) << 64;
    if random.percent(90) {
        bits &= (1 << used) - 1;
    }
    if random.percent(70) {
        bits |= 1;
    }
    bits.to_le_bytes()[..bytes_that_hold(used)].to_vec()
}

/// A pointer write of any bits.
pub fn rough_write(random: &mut Random) -> PointerWrite {
    let n = random.between(1, 10);
    let halvings = random.pick(&[0, 4, 6, 7, 8, 9]);
    PointerWrite {
        n: n as u64,
        data: random.bytes(64),
        mask: sparse_row(random, halvings),
        values: random.bytes(64),
        cells: random.bytes(64),
        metadata: if random.bit() {
            vec![0; bytes_that_hold(10 * n + 1)]
        } else {
            rough_metadata(random, n)
        },
    }
}

/// A pointer read of any bits.
pub fn rough_read(random: &mut Random) -> PointerRead {
    let n = random.between(1, 10);
    PointerRead {
        n: n as u64,
        cells: random.bytes(64),
        metadata: rough_metadata(random, n),
        output: random.bytes(64),
    }
}
