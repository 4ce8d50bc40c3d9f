//! How often the made reads, stores and conversions have counters above K, of which kinds, and beside which damage.

use std::collections::BTreeMap;

use second::answer;
use second::call::Call;
use second::make::Maker;

const COUNT: usize = 40_000;

/// What reads, stores and conversions have in common: rows, columns and K, and the counters.
fn numbers_and_counters(call: &Call) -> Option<([u64; 3], &[u8])> {
    match call {
        Call::GridRead(c) => Some((c.numbers, &c.counters)),
        Call::GridStore(c) => Some((c.numbers, &c.counters)),
        Call::GridConvert(c) => Some((c.numbers[..3].try_into().unwrap(), &c.counters)),
        _ => None,
    }
}

/// The places and values of all counters above K in the bytes, lowest bit first; spare bits are no counters.
fn above_k(numbers: [u64; 3], counters: &[u8]) -> Vec<(usize, u8)> {
    let lines = numbers[0].saturating_add(numbers[1]);
    let width = match numbers[2] {
        1 => 1,
        2 | 3 => 2,
        4..=7 => 3,
        _ => return Vec::new(),
    };
    let bits: Vec<u8> = counters
        .iter()
        .flat_map(|byte| (0..8).map(move |bit| byte >> bit & 1))
        .collect();
    let values = bits
        .chunks_exact(width)
        .map(|bits| bits.iter().rev().fold(0, |value, bit| 2 * value + bit));
    values
        .enumerate()
        .filter(|(place, value)| (*place as u64) < lines && u64::from(*value) > numbers[2])
        .collect()
}

/// Where the bad counters of a call with refusal 4 are, in words that are counted.
fn kinds(rows: usize, columns: usize, bad: &[usize]) -> Vec<&'static str> {
    let in_rows = bad.iter().filter(|place| **place < rows).count();
    let in_columns = bad.len() - in_rows;
    let is_one_at = |place: usize| bad == [place];
    let all = [
        ("all", true),
        ("several", bad.len() > 1),
        ("both lists", in_rows > 0 && in_columns > 0),
        ("several rows alone", in_rows > 1 && in_columns == 0),
        ("several columns alone", in_rows == 0 && in_columns > 1),
        ("first row alone", is_one_at(0)),
        ("last row alone", is_one_at(rows - 1)),
        ("first column alone", is_one_at(rows)),
        ("last column alone", is_one_at(rows + columns - 1)),
        ("64 by 64", rows == 64 && columns == 64),
        ("1 by 64", rows == 1 && columns == 64),
        ("64 by 1", rows == 64 && columns == 1),
        ("not square", rows != columns),
        (
            "counters end within a byte",
            !(rows + columns).is_multiple_of(4),
        ),
    ];
    all.iter()
        .filter(|kind| kind.1)
        .map(|kind| kind.0)
        .collect()
}

/// What a store with refusal 4 would answer at the greatest K of its width, which allows its bad counters.
fn number_if_allowed(call: &Call) -> Option<u8> {
    let Call::GridStore(store) = call else {
        return None;
    };
    let mut allowed = store.clone();
    allowed.numbers[2] = if store.numbers[2] < 4 { 3 } else { 7 };
    Some(answer::make(&mut Call::GridStore(allowed)).unwrap().number)
}

/// What the calls with bad counters were found to be.
#[derive(Default)]
struct Found {
    kinds: BTreeMap<&'static str, usize>,
    beside: BTreeMap<(u8, u8), usize>,
    indices: BTreeMap<usize, usize>,
    if_allowed: BTreeMap<Option<u8>, usize>,
    by_k: BTreeMap<(u8, u64), usize>,
    greatest_is_not_first: BTreeMap<(u8, u64), usize>,
}

/// The tag of a call that has counters to judge.
fn tag(call: &Call) -> u8 {
    match call {
        Call::GridRead(_) => 4,
        Call::GridStore(_) => 5,
        _ => 6,
    }
}

impl Found {
    /// Counts a call with refusal 4.
    fn count_bad(&mut self, call: &Call, numbers: [u64; 3], bad: &[(usize, u8)]) {
        let places: Vec<usize> = bad.iter().map(|(place, _)| *place).collect();
        *self.indices.entry(places[0]).or_insert(0) += 1;
        let if_allowed = number_if_allowed(call);
        *self.if_allowed.entry(if_allowed).or_insert(0) += 1;
        for kind in kinds(numbers[0] as usize, numbers[1] as usize, &places) {
            *self.kinds.entry(kind).or_insert(0) += 1;
        }
        let key = (tag(call), numbers[2]);
        *self.by_k.entry(key).or_insert(0) += 1;
        if bad.iter().any(|(_, value)| *value > bad[0].1) {
            *self.greatest_is_not_first.entry(key).or_insert(0) += 1;
        }
    }

    /// Prints what was found.
    fn print(&self) {
        for (kind, count) in &self.kinds {
            println!("refusal 4, {kind}: {count}");
        }
        for ((tag, number), count) in &self.beside {
            println!("bad counters beside answer {number}, tag {tag}: {count}");
        }
        for ((tag, k), count) in &self.by_k {
            let not_first = self.greatest_is_not_first.get(&(*tag, *k)).unwrap_or(&0);
            println!("refusal 4, tag {tag}, K = {k}: {count}, greatest not first {not_first}");
        }
        println!(
            "stores with refusal 4 would answer at the greatest K of their width: {:?}",
            self.if_allowed
        );
        println!("different indices: {}", self.indices.len());
    }
}

#[test]
fn bad_counters_of_every_kind_come_up_often() {
    let mut maker = Maker::of_whole_blocks(4);
    let mut found = Found::default();
    for _ in 0..COUNT {
        let call = maker.next_call();
        let outcome = answer::make(&mut call.clone()).unwrap();
        let Some((numbers, counters)) = numbers_and_counters(&call) else {
            assert_eq!(outcome.index, None);
            continue;
        };
        let bad = above_k(numbers, counters);
        if outcome.number == 4 {
            assert_eq!(outcome.index, Some(bad[0].0));
            found.count_bad(&call, numbers, &bad);
        } else {
            assert_eq!(outcome.index, Some(0));
            if !bad.is_empty() {
                let key = (tag(&call), outcome.number);
                *found.beside.entry(key).or_insert(0) += 1;
            }
        }
    }
    found.print();
    let all = found.kinds["all"];
    println!("calls with refusal 4: {all} of {COUNT} calls");

    assert!(100 * all >= 8 * COUNT);
    assert!(100 * found.kinds["several"] >= 45 * all);
    assert!(100 * found.kinds["both lists"] >= 30 * all);
    assert_eq!(found.kinds.len(), 14);
    assert!(found.kinds.values().all(|count| *count >= 20));
    // A lower refusal goes first, and no such call is accepted or refused with 13.
    let lower = [4, 5, 6].map(|tag| [(tag, 1), (tag, 2), (tag, 3)]).concat();
    assert_eq!(found.beside.keys().copied().collect::<Vec<_>>(), lower);
    assert!(found.beside.values().all(|count| *count >= 40));
    // Every K that has bad counters has them in every call; where they may differ, the first is often not the greatest.
    let every_k = [4, 5, 6]
        .map(|tag| [(tag, 2), (tag, 4), (tag, 5), (tag, 6)])
        .concat();
    assert_eq!(found.by_k.keys().copied().collect::<Vec<_>>(), every_k);
    assert!(found.by_k.values().all(|count| *count >= 80));
    let differ = [4, 5, 6].map(|tag| [(tag, 4), (tag, 5)]).concat();
    let not_first = &found.greatest_is_not_first;
    assert_eq!(not_first.keys().copied().collect::<Vec<_>>(), differ);
    assert!(not_first.values().all(|count| *count >= 40));
    // Stores have bad counters with a misread cell and without one.
    let answers: Vec<Option<u8>> = found.if_allowed.keys().copied().collect();
    assert_eq!(answers, [None, Some(0), Some(13)]);
    assert!(found.if_allowed.values().all(|count| *count >= 200));
    // Also the greatest index, and those of the last row and the first column of 64 rows.
    assert!(found.indices.len() >= 60);
    assert!([63, 64, 127]
        .iter()
        .all(|index| found.indices.contains_key(index)));
}
