//! Inputs for timing the conversion of counters: with few that are not 0, and with all of them anything up to K.

use second::call::GridConvert;
use second::counters::{packed_counters, Counters};
use second::make_convert::packed_length;
use second::make_grid::shape_of;
use second::random::Random;

use crate::contestant::Second;
use crate::input::Input;

/// How many counters of each list are not 0 where there are few.
const FEW: usize = 3;

/// A list of so many counters up to K: a few that are not 0, or each anything.
fn some_list(random: &mut Random, size: usize, k: usize, few: bool) -> Vec<usize> {
    if !few {
        return (0..size).map(|_| random.between(0, k)).collect();
    }
    let mut list = vec![0; size];
    for line in &random.order(size)[..FEW] {
        list[*line] = random.between(1, k);
    }
    list
}

/// So many conversions for square blocks of this size, all accepted; the outputs hold anything.
pub fn conversions(
    random: &mut Random,
    count: usize,
    size: usize,
    [k, target]: [usize; 2],
    few: bool,
) -> Vec<GridConvert> {
    let [lines, from, to] = [size, k, target].map(|number| number as u64);
    let mut calls = Vec::new();
    for _ in 0..count {
        let counters = Counters {
            rows: some_list(random, size, k, few),
            columns: some_list(random, size, k, few),
        };
        let call = GridConvert {
            numbers: [lines, lines, from, to],
            counters: packed_counters(shape_of([lines, lines, from]), &counters),
            output: random.bytes(packed_length(lines, lines, to)),
        };
        assert_eq!(call.clone().made_by::<Second>().number, 0);
        calls.push(call);
    }
    calls
}
