//! Fault counts of document 02, A9.

use bench::contestant::Contestant;
use second::call::GridPlan;

use crate::blocks::{grid_accepts, grid_plan, grid_store, refuses, stores};

/// Fault counts: blocks that are not square, data that is not 0, and value bits at sound cells; then full blocks.
pub fn fault_counts<C: Contestant>() {
    // One wrong cell, (0,2), and three right ones; then the same with the data inverted.
    let mut wide = GridPlan {
        numbers: [2, 5, 1],
        data: vec![0b01101, 0b10010],
        mask: vec![0b10110, 0b00001],
        values: vec![0b01001, 0b10010],
        counters: vec![0xa5],
    };
    grid_accepts::<C>(&wide, [1, 1, 3], &[0b01001, 0b10010], &[0x11]);
    stores::<C>(&grid_store(&wide, &[0x15]), [1, 1, 3], &[0b01000, 0b10010]);
    wide.values = vec![0b00000, 0b01100];
    grid_accepts::<C>(&wide, [1, 1, 3], &[0b01001, 0b10010], &[0x11]);
    wide.data = vec![0b10010, 0b01101];
    grid_accepts::<C>(&wide, [1, 3, 1], &[0b00001, 0b11110], &[0x4f]);
    // Two wrong cells in a chain, (0,0) and (2,1), and four right ones.
    let mut tall = GridPlan {
        numbers: [5, 2, 2],
        data: vec![1, 2, 3, 0, 2],
        mask: vec![3, 0, 2, 1, 3],
        values: vec![0, 2, 1, 0, 2],
        counters: vec![0xa5; 2],
    };
    grid_accepts::<C>(&tall, [2, 2, 4], &[0, 2, 0, 0, 2], &[0x12, 0x24]);
    refuses::<C, _>(&grid_store(&tall, &[0x12, 0x25]), 13);
    tall.numbers[2] = 1;
    tall.counters.pop();
    refuses::<C, _>(&tall, 7);
    // All cells right, all wrong, and the last row alone wrong.
    let (zeros, ones) = ([0; 64], [u64::MAX; 64]);
    let mut last = zeros;
    last[63] = u64::MAX;
    let of_last = [vec![0x00; 7], vec![0x80], vec![0xff; 8]].concat();
    let right = grid_plan(3, &ones, &zeros, 32);
    grid_accepts::<C>(&right, [0, 0, 4096], &zeros, &[0x00; 32]);
    let wrong = grid_plan(1, &ones, &ones, 16);
    grid_accepts::<C>(&wrong, [1, 4096, 0], &ones, &[0xff; 16]);
    let row = grid_plan(1, &ones, &last, 16);
    grid_accepts::<C>(&row, [1, 64, 4032], &last, &of_last);
}
