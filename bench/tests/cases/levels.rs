//! Seven levels of document 02, A8: staircases of any depth, and stores with counters of three bits that no plan made.

use bench::contestant::Contestant;

use crate::blocks::{grid_accepts, grid_plan, grid_store, refuses, stores};

/// G5 at every K, G7 with K from 4, and G6 grown to seven levels: each with its levels and with one fewer.
pub fn depths<C: Contestant>() {
    for k in 4..=7 {
        refuses::<C, _>(&grid_plan(k, &[3, 3], &[1, 2], 2), 7);
        // Row counters 2, 4, 3, 1 and column counters 1, 3, 4, 2.
        let g7 = grid_plan(k, &[3, 6, 12, 8], &[1, 2, 4, 8], 3);
        grid_accepts::<C>(&g7, [4, 4, 3], &[1, 3, 7, 15], &[0xe2, 0x92, 0x51]);
    }
    let (mask, values) = ([3, 6, 12, 24, 48, 96, 64], [1, 2, 4, 8, 16, 32, 64]);
    for k in 4..=6 {
        refuses::<C, _>(&grid_plan(k, &mask, &values, 6), 7);
    }
    // Row counters 2, 4, 6, 7, 5, 3, 1 and column counters 1, 3, 5, 7, 6, 4, 2.
    grid_accepts::<C>(
        &grid_plan(7, &mask, &values, 6),
        [7, 7, 6],
        &[1, 3, 7, 15, 31, 63, 127],
        &[0xa2, 0xdf, 0x25, 0xeb, 0x4d, 0x01],
    );
    // Fourteen in a chain end on a right cell; fifteen take an eighth level.
    let mut mask = [3, 6, 12, 24, 48, 96, 192, 0];
    let mut values = [1, 2, 4, 8, 16, 32, 64, 0];
    grid_accepts::<C>(
        &grid_plan(7, &mask, &values, 6),
        [7, 7, 7],
        &[1, 3, 7, 15, 31, 63, 127, 0],
        // Row 7 and column 7 have counters 0.
        &[0xa2, 0xdf, 0x05, 0x59, 0x6f, 0x0a],
    );
    (mask[7], values[7]) = (128, 128);
    refuses::<C, _>(&grid_plan(7, &mask, &values, 6), 7);
    // One wrong cell in the last row and column of the largest block: one level at every K.
    let mut corner = [0; 64];
    corner[63] = 1 << 63;
    let mut counters = [0; 48];
    (counters[23], counters[47]) = (0x20, 0x20);
    for k in 4..=7 {
        let plan = grid_plan(k, &corner, &corner, 48);
        grid_accepts::<C>(&plan, [1, 1, 0], &corner, &counters);
    }
}

/// Counters that straddle bytes, of which the smaller says whether a cell is inverted; and their spare bits.
pub fn foreign_stores<C: Contestant>() {
    let mut g1 = grid_plan(7, &[0, 0], &[0, 0], 2);
    g1.data = vec![1, 2];
    stores::<C>(&grid_store(&g1, &[0xff, 0x0f]), [7, 0, 0], &[2, 1]);
    // Rows 7 and 7, columns 4 and 5: column 0 has bits 6 to 8.
    stores::<C>(&grid_store(&g1, &[0x3f, 0x0b]), [7, 0, 0], &[3, 0]);
    // Rows 6 and 5, columns 6 and 5.
    stores::<C>(&grid_store(&g1, &[0xae, 0x0b]), [6, 0, 0], &[3, 1]);
    // Rows 1 and 2, columns 3 and 4.
    stores::<C>(&grid_store(&g1, &[0xd1, 0x08]), [4, 0, 0], &[2, 2]);
    for spare in [0x10, 0x20, 0x40, 0x80] {
        refuses::<C, _>(&grid_store(&g1, &[0x00, spare]), 3);
    }
    // One counter alone inverts nothing, wherever it stands.
    for counters in [[0x07, 0x00], [0x38, 0x00], [0xc0, 0x01], [0x00, 0x0e]] {
        stores::<C>(&grid_store(&g1, &counters), [7, 0, 0], &[1, 2]);
    }
    let g3 = grid_plan(4, &[3, 2], &[1, 2], 2);
    stores::<C>(&grid_store(&g3, &[0x4a, 0x04]), [2, 2, 1], &[1, 3]);
    // Row 0 may be 4 as well, and column 1; row 1 may not be 2.
    stores::<C>(&grid_store(&g3, &[0x4c, 0x04]), [4, 2, 1], &[1, 3]);
    stores::<C>(&grid_store(&g3, &[0x4a, 0x08]), [4, 2, 1], &[1, 3]);
    refuses::<C, _>(&grid_store(&g3, &[0x52, 0x04]), 13);
    refuses::<C, _>(&grid_store(&g3, &[0x00, 0x00]), 13);
}

/// The lengths of the other widths: 1 and 2 bytes for four counters.
pub fn lengths<C: Contestant>() {
    for (k, right) in [(1, 1), (2, 1), (3, 1), (4, 2), (5, 2), (6, 2), (7, 2)] {
        for length in 0..4 {
            let plan = grid_plan(k, &[0, 0], &[0, 0], length);
            let store = grid_store(&plan, &vec![0; length]);
            if length == right {
                grid_accepts::<C>(&plan, [0, 0, 0], &[0, 0], &vec![0; length]);
            } else {
                refuses::<C, _>(&plan, 2);
                refuses::<C, _>(&store, 2);
            }
        }
    }
}
