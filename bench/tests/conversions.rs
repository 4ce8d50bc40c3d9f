//! Among the calls of the agreement, conversions go from every K to every target, and are refused in every way.

use std::collections::BTreeMap;

use bench::agree::SEED;
use bench::calls::Calls;
use bench::contestant::Second;
use bench::input::Input;
use second::call::{Call, GridConvert};
use second::make_convert::packed_length;

/// So many conversions are looked at.
const CALLS: usize = 50_000;

/// Whether a number lies in the range that ends here.
fn is_in(number: u64, most: u64) -> bool {
    (1..=most).contains(&number)
}

/// The one number that is outside its range, and on which side, or K and the target where the target is smaller; nothing
/// where there are several.
fn why_refused_with_1(numbers: [u64; 4]) -> Option<String> {
    let names = ["rows", "columns", "K", "target"];
    let most = [64, 64, 7, 7];
    let outside: Vec<usize> = (0..4)
        .filter(|place| !is_in(numbers[*place], most[*place]))
        .collect();
    match outside.as_slice() {
        [] => Some(format!("1: {} to {}", numbers[2], numbers[3])),
        [place] if numbers[*place] == 0 => Some(format!("1: no {}", names[*place])),
        [place] => Some(format!("1: {} above", names[*place])),
        [2, 3] => Some(String::from("1: K and target")),
        _ => None,
    }
}

/// Which length is wrong, and whether it is that of the other's width.
fn why_refused_with_2(call: &GridConvert) -> String {
    let [rows, columns, k, target] = call.numbers;
    let right = [k, target].map(|levels| packed_length(rows, columns, levels));
    let lengths = [call.counters.len(), call.output.len()];
    let way = if right[0] != right[1] && lengths == [right[0]; 2] {
        "output as counters"
    } else if right[0] != right[1] && lengths == [right[1]; 2] {
        "counters as output"
    } else if lengths == [right[1], right[0]] {
        "exchanged"
    } else if lengths[0] == right[0] {
        "output"
    } else if lengths[1] == right[1] {
        "counters"
    } else {
        "both"
    };
    format!("2: {way}")
}

/// What came of a conversion, and why; nothing if there are several reasons.
fn outcome(call: &GridConvert) -> Option<String> {
    let [_, _, k, target] = call.numbers;
    match call.clone().made_by::<Second>().number {
        1 => why_refused_with_1(call.numbers),
        2 => Some(why_refused_with_2(call)),
        number => Some(format!("{number}: {k} to {target}")),
    }
}

/// Every outcome that should come up: 28 pairs accepted and 21 refused, spare bits at each pair, counters above K at each
/// pair that can have them, each number outside, and each way for a length to be wrong.
fn expected() -> Vec<String> {
    let mut all = Vec::new();
    for k in 1..=7 {
        for target in 1..=7 {
            if target < k {
                all.push(format!("1: {k} to {target}"));
                continue;
            }
            all.push(format!("0: {k} to {target}"));
            all.push(format!("3: {k} to {target}"));
            if [2, 4, 5, 6].contains(&k) {
                all.push(format!("4: {k} to {target}"));
            }
        }
    }
    for name in ["rows", "columns", "K", "target"] {
        all.push(format!("1: no {name}"));
        all.push(format!("1: {name} above"));
    }
    all.push(String::from("1: K and target"));
    let ways = ["output as counters", "counters as output", "exchanged"];
    for way in ways.into_iter().chain(["output", "counters", "both"]) {
        all.push(format!("2: {way}"));
    }
    all
}

#[test]
fn every_pair_and_every_way_to_be_refused_come_up() {
    let mut calls = Calls::new(SEED);
    let mut seen: BTreeMap<String, usize> = BTreeMap::new();
    let mut looked_at = 0;
    while looked_at < CALLS {
        if let Call::GridConvert(call) = calls.next_call() {
            looked_at += 1;
            if let Some(outcome) = outcome(&call) {
                *seen.entry(outcome).or_default() += 1;
            }
        }
    }
    for outcome in expected() {
        let times = seen.get(&outcome).copied().unwrap_or(0);
        assert!(times >= 10, "{outcome} came up {times} times");
    }
    assert_eq!(seen.len(), expected().len(), "{seen:?}");
}
