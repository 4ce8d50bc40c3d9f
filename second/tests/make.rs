//! What the maker makes of whole blocks and rows: the same calls for the same seed, every answer often enough, levels
//! at their bounds, and calls of low mean size.

use std::cmp::Ordering;
use std::collections::BTreeMap;

use second::answer;
use second::call::{next_call, put_call, Call, GridPlan, GridStore};
use second::make::Maker;
use second::pointer::active_entries;

const COUNT: usize = 40_000;

/// The answers that each tag can give.
const CAN_BE_GIVEN: [(usize, &[u8]); 6] = [
    (1, &[0, 1, 2, 3, 4, 5, 6]),
    (2, &[0, 1, 2, 3, 4, 5]),
    (3, &[0, 1, 2, 3, 7]),
    (4, &[0, 1, 2, 3, 4]),
    (5, &[0, 1, 2, 3, 4, 13]),
    (6, &[0, 1, 2, 3, 4]),
];

/// The bytes of so many calls of a seed.
fn bytes_of(seed: u64, count: usize) -> Vec<u8> {
    let mut maker = Maker::of_whole_blocks(seed);
    let mut bytes = Vec::new();
    for _ in 0..count {
        put_call(&mut bytes, &maker.next_call()).unwrap();
    }
    bytes
}

/// The tag of a call.
fn tag(call: &Call) -> usize {
    match call {
        Call::PointerWrite(_) => 1,
        Call::PointerRead(_) => 2,
        Call::GridPlan(_) => 3,
        Call::GridRead(_) => 4,
        Call::GridStore(_) => 5,
        Call::GridConvert(_) => 6,
        Call::Transfer(_) => panic!("a transfer is not a whole block"),
    }
}

/// Checks that what a refused call was lent is unaltered and that its counts are 0, and that an accepted pointer write
/// keeps the entries that were active and counts those that are stored.
fn check_outcome(before: &Call, after: &Call, outcome: &answer::Outcome) {
    if outcome.number != 0 {
        assert_eq!(before, after);
        assert!(outcome.counts.iter().all(|count| *count == 0));
        return;
    }
    if let (Call::PointerWrite(old), Call::PointerWrite(new)) = (before, after) {
        let n = old.n as usize;
        let kept = active_entries(n, &old.metadata).unwrap();
        let stored = active_entries(n, &new.metadata).unwrap();
        assert_eq!(outcome.counts, [stored.len(), stored.len() - kept.len()]);
        for (place, entry) in kept.iter().enumerate() {
            assert_eq!(stored[place].pointer, entry.pointer);
        }
        let added: Vec<usize> = stored[kept.len()..].iter().map(|e| e.pointer).collect();
        assert!(added.windows(2).all(|pair| pair[0] < pair[1]));
    }
}

#[test]
fn the_same_seed_makes_the_same_calls() {
    assert_eq!(bytes_of(5, 3000), bytes_of(5, 3000));
    assert_ne!(bytes_of(5, 3000), bytes_of(6, 3000));
}

/// K, the answer and L of a plan or a store that got as far as its levels or counters.
fn level_key(call: &Call, outcome: &answer::Outcome) -> Option<(usize, u64, u8, usize)> {
    let most_levels = match call {
        Call::GridPlan(c) => c.numbers[2],
        Call::GridStore(c) => c.numbers[2],
        _ => return None,
    };
    match outcome.number {
        0 | 7 | 13 => Some((tag(call), most_levels, outcome.number, outcome.counts[0])),
        _ => None,
    }
}

/// How a store's counters stand to those that the plan of the same block gives.
fn origin(call: &GridStore) -> &'static str {
    let mut plan = Call::GridPlan(GridPlan {
        numbers: call.numbers,
        data: call.data.clone(),
        mask: call.mask.clone(),
        values: call.values.clone(),
        counters: vec![0; call.counters.len()],
    });
    let outcome = answer::make(&mut plan).unwrap();
    match plan {
        _ if outcome.number == 7 => "no plan",
        Call::GridPlan(planned) if planned.counters == call.counters => "the plan's counters",
        _ => "other counters than the plan's",
    }
}

#[test]
fn every_answer_comes_up_often() {
    let bytes = bytes_of(1, COUNT);
    let mut input = bytes.as_slice();
    let mut calls = BTreeMap::new();
    let mut numbers = BTreeMap::new();
    let mut levels = BTreeMap::new();
    let mut large = 0;
    while let Some(call) = next_call(&mut input).unwrap() {
        let mut made = call.clone();
        let outcome = answer::make(&mut made).unwrap();
        check_outcome(&call, &made, &outcome);
        *calls.entry(tag(&call)).or_insert(0) += 1;
        *numbers.entry((tag(&call), outcome.number)).or_insert(0) += 1;
        if let Some(key) = level_key(&call, &outcome) {
            *levels.entry(key).or_insert(0) += 1;
        }
        let lines = match (&call, outcome.number) {
            (Call::GridPlan(c), 0 | 7) => c.numbers[0] + c.numbers[1],
            (Call::GridStore(c), 0 | 13) => c.numbers[0] + c.numbers[1],
            _ => 0,
        };
        large += usize::from(lines == 128);
    }
    println!("mean size of a call: {} bytes", bytes.len() / COUNT);
    println!("judged grid plans and stores of 64 by 64: {large}");
    for ((tag, number), count) in &numbers {
        let share = 100.0 * f64::from(*count) / f64::from(calls[tag]);
        println!("tag {tag}, answer {number}: {count} ({share:.1} %)");
    }
    for ((tag, k, number, l), count) in &levels {
        println!("tag {tag}, K = {k}, answer {number}, L = {l}: {count}");
    }

    let mut seen = Vec::new();
    for (tag, given) in CAN_BE_GIVEN {
        assert!(10 * calls[&tag] >= COUNT as i32, "tag {tag}");
        for number in given {
            let count = numbers.get(&(tag, *number)).copied().unwrap_or(0);
            assert!(50 * count >= calls[&tag], "tag {tag}, answer {number}");
            seen.push((tag, *number));
        }
    }
    assert_eq!(numbers.keys().copied().collect::<Vec<_>>(), seen);
    for (tag, refusal) in [(3, 7), (5, 13)] {
        for k in 1..=7 {
            let all: i32 = levels
                .iter()
                .filter(|(key, _)| key.0 == tag && key.1 == k)
                .map(|(_, count)| *count)
                .sum();
            for l in 0..=k as usize {
                let count = levels[&(tag, k, 0, l)];
                assert!(50 * count >= all, "tag {tag}, K = {k}, L = {l}");
            }
            assert!(50 * levels[&(tag, k, refusal, 0)] >= all, "K = {k}");
        }
    }
}

#[test]
fn stores_have_counters_of_every_origin() {
    let bytes = bytes_of(2, COUNT);
    let mut input = bytes.as_slice();
    let mut origins = BTreeMap::new();
    while let Some(mut call) = next_call(&mut input).unwrap() {
        let outcome = answer::make(&mut call).unwrap();
        if let (Call::GridStore(store), 0 | 13) = (&call, outcome.number) {
            let stuck = store.mask.iter().any(|word| *word != 0);
            let key = (outcome.number, stuck, origin(store));
            *origins.entry(key).or_insert(0) += 1;
        }
    }
    for ((number, stuck, origin), count) in &origins {
        println!("store, answer {number}, any stuck {stuck}, {origin}: {count}");
    }
    // Where the plan refuses, a chain of 2K + 1 cells asks for a counter above K: no other counters mask either.
    let expected = [
        (0, false, "other counters than the plan's"),
        (0, false, "the plan's counters"),
        (0, true, "other counters than the plan's"),
        (0, true, "the plan's counters"),
        (13, true, "no plan"),
        (13, true, "other counters than the plan's"),
    ];
    assert_eq!(origins.keys().copied().collect::<Vec<_>>(), expected);
    assert!(origins.values().all(|count| *count >= 40));
}

#[test]
fn levels_reach_their_bounds_and_only_stores_pass_them() {
    let bytes = bytes_of(3, COUNT);
    let mut input = bytes.as_slice();
    let mut stands = BTreeMap::new();
    while let Some(mut call) = next_call(&mut input).unwrap() {
        let outcome = answer::make(&mut call).unwrap();
        if let (Call::GridPlan(_) | Call::GridStore(_), 0) = (&call, outcome.number) {
            let [levels, stuck, wrong, right] = outcome.counts[..] else {
                panic!("a plan and a store have four counts");
            };
            assert_eq!(wrong + right, stuck);
            let by_wrong = (tag(&call), "wrong cells", levels.cmp(&wrong));
            let by_right = (tag(&call), "right cells and 1", levels.cmp(&(right + 1)));
            *stands.entry(by_wrong).or_insert(0) += 1;
            *stands.entry(by_right).or_insert(0) += 1;
        }
    }
    for ((tag, bound, stand), count) in &stands {
        println!("tag {tag}, L and its {bound}: {stand:?}, {count}");
    }
    for bound in ["wrong cells", "right cells and 1"] {
        for tag in [3, 5] {
            assert!(stands[&(tag, bound, Ordering::Less)] >= 500);
            assert!(stands[&(tag, bound, Ordering::Equal)] >= 500);
        }
        assert!(!stands.contains_key(&(3, bound, Ordering::Greater)));
        assert!(stands[&(5, bound, Ordering::Greater)] >= 100);
    }
}
