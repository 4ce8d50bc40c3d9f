//! How often the made calls reach each number of levels, each K and each target, and at which sizes.

use std::collections::BTreeMap;

use second::answer;
use second::call::{Call, GridConvert, GridPlan};
use second::chains::longest_chain;
use second::levels::states;
use second::make::Maker;

const COUNT: usize = 40_000;

/// K and L of an accepted plan or store with its tag, and its rows and columns.
fn accepted_levels(call: &Call, outcome: &answer::Outcome) -> Option<(u8, u64, usize, u64)> {
    let (tag, numbers) = match call {
        Call::GridPlan(c) => (3, c.numbers),
        Call::GridStore(c) => (5, c.numbers),
        _ => return None,
    };
    if outcome.number != 0 {
        return None;
    }
    let lines = numbers[0] + numbers[1];
    Some((tag, numbers[2], outcome.counts[0], lines))
}

/// Whether the longest chain of a plan that is refused with 7 has 2K + 1 or 2K + 2 cells, not more.
fn is_one_too_many(plan: &GridPlan) -> bool {
    let grid = states(
        plan.numbers[1] as usize,
        &plan.data,
        &plan.mask,
        &plan.values,
    );
    let k = plan.numbers[2] as usize;
    longest_chain(&grid, 2 * k + 3) < 2 * k + 3
}

#[test]
fn every_number_of_levels_comes_up_at_many_sizes() {
    let mut maker = Maker::of_whole_blocks(11);
    let mut accepted = BTreeMap::new();
    let mut levels = BTreeMap::new();
    let mut sizes: BTreeMap<usize, Vec<u64>> = BTreeMap::new();
    let mut straddling = BTreeMap::new();
    let mut one_too_many = BTreeMap::new();
    for _ in 0..COUNT {
        let mut call = maker.next_call();
        let outcome = answer::make(&mut call).unwrap();
        if let Some((tag, k, l, lines)) = accepted_levels(&call, &outcome) {
            *accepted.entry(tag).or_insert(0) += 1;
            *levels.entry((tag, l)).or_insert(0) += 1;
            sizes.entry(l).or_default().push(lines);
            // Where counters of three bits end within a byte, one straddles it.
            let is_straddling = k >= 4 && !(3 * lines).is_multiple_of(8);
            *straddling.entry((tag, l)).or_insert(0) += usize::from(is_straddling);
        }
        if let (Call::GridPlan(plan), 7) = (&call, outcome.number) {
            *one_too_many
                .entry((plan.numbers[2], is_one_too_many(plan)))
                .or_insert(0) += 1;
        }
    }
    for ((tag, l), count) in &levels {
        let share = 100.0 * f64::from(*count) / f64::from(accepted[tag]);
        let straddle = straddling[&(*tag, *l)];
        println!(
            "tag {tag}, L = {l}: {count} ({share:.1} %), with counters that straddle {straddle}"
        );
        assert!(share >= 2.0);
    }
    for (l, found) in sizes.iter_mut() {
        found.sort();
        found.dedup();
        println!(
            "L = {l}: {} different numbers of rows and columns",
            found.len()
        );
        assert!(found.len() >= 20 && found.contains(&128));
    }
    for ((k, allowed), count) in &one_too_many {
        println!("refusal 7, K = {k}, just one level too many {allowed}: {count}");
    }
    assert_eq!(levels.len(), 16);
    for tag in [3, 5] {
        assert!((4..=7).all(|l| straddling[&(tag, l)] >= 40));
    }
    assert!((1..=7).all(|k| one_too_many[&(k, true)] >= 30));
}

/// Of a conversion: K and the target, and whether its output before has a spare bit that is 1.
fn conversion_key(call: &GridConvert) -> (u64, u64, bool) {
    let [rows, columns, k, target] = call.numbers;
    let width = [1, 2, 2, 3, 3, 3, 3][target as usize - 1];
    let used = (rows + columns) * width % 8;
    let spare = used > 0 && call.output.last().unwrap() >> used > 0;
    (k, target, spare)
}

#[test]
fn every_k_is_converted_to_every_target_often() {
    let mut maker = Maker::of_whole_blocks(12);
    let mut pairs = BTreeMap::new();
    let mut with_spare_bit = 0;
    let mut widths = BTreeMap::new();
    let mut smaller = BTreeMap::new();
    for _ in 0..COUNT {
        let Call::GridConvert(call) = maker.next_call() else {
            continue;
        };
        let number = answer::make(&mut Call::GridConvert(call.clone()))
            .unwrap()
            .number;
        let [rows, columns, k, target] = call.numbers;
        if number == 0 {
            let (k, target, spare) = conversion_key(&call);
            *pairs.entry((k, target)).or_insert(0) += 1;
            with_spare_bit += usize::from(spare);
            let ends = (rows + columns) * 3 % 8;
            *widths.entry((target >= 4, ends)).or_insert(0) += 1;
        }
        let in_range = |levels: u64| (1..=7).contains(&levels);
        if in_range(k) && in_range(target) && target < k {
            assert!(number == 1);
            *smaller.entry((k, target)).or_insert(0) += 1;
        }
    }
    println!("accepted, by K and target: {pairs:?}");
    println!("smaller targets: {smaller:?}");
    println!("accepted with a spare bit in the output before: {with_spare_bit}");
    assert_eq!(pairs.len(), 28);
    assert!(pairs.values().all(|count| *count >= 15));
    assert_eq!(smaller.len(), 21);
    assert!(smaller.values().all(|count| *count >= 5));
    assert!(with_spare_bit >= 300);
    // Outputs of three bits a counter end after every number of bits of a byte.
    assert!((0..8).all(|ends| widths[&(true, ends)] >= 40));
}
