//! The grid cases of document 01, and stores of document 02, A7, with counters that no plan made.

use bench::contestant::Contestant;
use bench::input::Input;
use second::call::GridRead;

use crate::blocks::{grid_accepts, grid_plan, grid_store, refuses, stores, READ};

/// G1 to G10.
pub fn grid_cases<C: Contestant>() {
    let mut g1 = grid_plan(1, &[0, 0], &[0, 0], 1);
    g1.data = vec![1, 2];
    grid_accepts::<C>(&g1, [0, 0, 0], &[1, 2], &[0x00]);
    let mut g2 = grid_plan(1, &[1], &[0], 1);
    g2.data = vec![1];
    grid_accepts::<C>(&g2, [1, 1, 0], &[0], &[0x03]);
    grid_accepts::<C>(
        &grid_plan(3, &[3, 2], &[1, 2], 1),
        [2, 2, 1],
        &[1, 3],
        &[0x96],
    );
    refuses::<C, _>(&grid_plan(1, &[3, 2], &[1, 2], 1), 7);
    for k in 1..=3 {
        refuses::<C, _>(&grid_plan(k, &[3, 3], &[1, 2], 1), 7);
    }
    let g6 = grid_plan(3, &[3, 6, 4], &[1, 2, 4], 2);
    grid_accepts::<C>(&g6, [3, 3, 2], &[1, 3, 7], &[0x5e, 0x0b]);
    refuses::<C, _>(&grid_plan(2, &[3, 6, 4], &[1, 2, 4], 2), 7);
    refuses::<C, _>(&grid_plan(3, &[3, 6, 12, 8], &[1, 2, 4, 8], 2), 7);
    grid_accepts::<C>(
        &grid_plan(1, &[3, 2], &[2, 0], 1),
        [1, 1, 2],
        &[2, 0],
        &[0x09],
    );
    refuses::<C, _>(&grid_plan(1, &[4, 0], &[0, 0], 1), 3);
    refuses::<C, _>(&grid_plan(0, &[0, 0], &[0, 0], 1), 1);
    refuses::<C, _>(&grid_plan(8, &[0, 0], &[0, 0], 1), 1);
    refuses::<C, _>(&grid_plan(8, &[0, 0], &[0, 0], 2), 1);
    let mut g10 = GridRead {
        numbers: [2, 2, 2],
        cells: vec![1, 2],
        counters: vec![0x57],
        output: vec![9, 9],
    };
    refuses::<C, _>(&g10, 4);
    g10.numbers[2] = 3;
    assert_eq!(g10.made_by::<C>(), READ);
    assert_eq!(g10.output, [2, 1]);
}

/// Stores with counters that no plan made, and their refusals.
pub fn foreign_stores<C: Contestant>() {
    let mut g1 = grid_plan(1, &[0, 0], &[0, 0], 1);
    g1.data = vec![1, 2];
    stores::<C>(&grid_store(&g1, &[0x0f]), [1, 0, 0], &[2, 1]);
    for counters in [0x01, 0x02, 0x04, 0x08] {
        stores::<C>(&grid_store(&g1, &[counters]), [1, 0, 0], &[1, 2]);
    }
    refuses::<C, _>(&grid_store(&g1, &[0x10]), 3);
    g1.numbers[2] = 2;
    stores::<C>(&grid_store(&g1, &[0x56]), [2, 0, 0], &[2, 1]);
    refuses::<C, _>(&grid_store(&g1, &[0x57]), 4);
    g1.numbers[2] = 3;
    stores::<C>(&grid_store(&g1, &[0x03]), [3, 0, 0], &[1, 2]);
    stores::<C>(&grid_store(&g1, &[0xc0]), [3, 0, 0], &[1, 2]);
    let g2 = grid_plan(1, &[1], &[1], 1);
    for counters in [0x00, 0x01, 0x02] {
        refuses::<C, _>(&grid_store(&g2, &[counters]), 13);
    }
    let g3 = grid_plan(3, &[3, 2], &[1, 2], 1);
    stores::<C>(&grid_store(&g3, &[0x97]), [3, 2, 1], &[1, 3]);
    stores::<C>(&grid_store(&g3, &[0xd6]), [3, 2, 1], &[1, 3]);
    refuses::<C, _>(&grid_store(&g3, &[0x00]), 13);
    refuses::<C, _>(&grid_store(&g3, &[0x9a]), 13);
    let g7 = grid_plan(3, &[3, 6, 12, 8], &[1, 2, 4, 8], 2);
    refuses::<C, _>(&grid_store(&g7, &[0x1e, 0x2d]), 13);
    let mut short = grid_store(&g3, &[0x96]);
    short.cells.pop();
    refuses::<C, _>(&short, 2);
}
