//! How often the made calls are transfers, how these end, and which kinds of scripts and damage they have.

use std::collections::BTreeMap;

use second::answer::{self, Outcome};
use second::call::{put_call, Call, Transfer};
use second::make::Maker;

const COUNT: usize = 40_000;

/// The tag of a call, from its bytes.
fn tag(call: &Call) -> usize {
    let mut bytes = Vec::new();
    put_call(&mut bytes, call).unwrap();
    usize::from(bytes[0])
}

/// The first made transfers with their outcomes and their output afterwards.
fn transfers(seed: u64) -> Vec<(Transfer, Outcome, Vec<u64>)> {
    let mut maker = Maker::new(seed);
    let mut found = Vec::new();
    for _ in 0..COUNT {
        let mut call = maker.next_call();
        if let Call::Transfer(before) = call.clone() {
            let outcome = answer::make(&mut call).unwrap();
            let Call::Transfer(after) = call else {
                unreachable!()
            };
            found.push((before, outcome, after.output));
        }
    }
    found
}

#[test]
fn two_of_five_calls_are_transfers_and_the_rest_are_as_before() {
    let mut counts = [0; 8];
    let mut maker = Maker::new(21);
    for _ in 0..COUNT {
        counts[tag(&maker.next_call())] += 1;
    }
    println!("calls by tag: {counts:?}");
    assert!(100 * counts[7] >= 40 * COUNT);
    let rest = COUNT - counts[7];
    for (place, share) in [13, 11, 23, 14, 24, 15].iter().enumerate() {
        let found = 1000 * counts[place + 1] / rest;
        assert!(found.abs_diff(10 * share) <= 10, "tag {}", place + 1);
    }
    for seed in 0..20 {
        let mut maker = Maker::new(seed);
        let few = (0..300).filter(|_| tag(&maker.next_call()) == 7).count();
        assert!(few >= 100, "seed {seed}");
    }
}

#[test]
fn transfers_end_with_every_number() {
    let mut numbers = BTreeMap::new();
    let mut at_k = BTreeMap::new();
    let all = transfers(22);
    for (call, outcome, _) in &all {
        *numbers.entry(outcome.number).or_insert(0) += 1;
        if matches!(outcome.number, 0 | 4) {
            let key = (outcome.number, call.numbers[2]);
            *at_k.entry(key).or_insert(0) += 1;
        }
    }
    for (number, count) in &numbers {
        let share = 100.0 * f64::from(*count) / all.len() as f64;
        println!("transfers, answer {number}: {count} ({share:.1} %)");
    }
    println!("accepted and refused with 4, by K: {at_k:?}");
    let given: Vec<u8> = numbers.keys().copied().collect();
    assert_eq!(given, [0, 1, 2, 3, 4, 8, 9]);
    assert!(numbers
        .values()
        .all(|count| *count as usize * 100 >= 5 * all.len()));
    let read = numbers[&0] + numbers[&3] + numbers[&4];
    assert!(read as usize * 100 >= 45 * all.len());
    // Every K is accepted, and every K that has bad counters is refused for them.
    let keys: Vec<u64> = at_k
        .keys()
        .map(|(number, k)| 10 * u64::from(*number) + k)
        .collect();
    assert_eq!(keys, [1, 2, 3, 4, 5, 6, 7, 42, 44, 45, 46]);
    assert!(at_k.values().all(|count| *count >= 100));
}

/// The bytes of the counters and of the whole block, if the numbers are in range.
fn lengths(numbers: [u64; 3]) -> Option<(usize, usize)> {
    let [rows, columns, k] = numbers;
    let width = [0, 1, 2, 2, 3, 3, 3, 3].get(k as usize).copied()?;
    if rows == 0 || rows > 64 || columns == 0 || columns > 64 || k == 0 {
        return None;
    }
    let counters = ((rows + columns) * width).div_ceil(8);
    Some((counters as usize, (counters + 8 * rows) as usize))
}

/// What the last start of a script sent: where each lump ended, in bytes since that start.
fn ends_of_lumps(call: &Transfer) -> Vec<usize> {
    let mut left = call.bytes.len();
    let mut sent = 0;
    let mut ends = Vec::new();
    for step in &call.script {
        match step {
            254 => {
                sent = 0;
                ends.clear();
            }
            255 => {}
            asked => {
                let lump = left.min(usize::from(*asked));
                left -= lump;
                sent += lump;
                ends.push(sent);
            }
        }
    }
    ends
}

/// What stands in a script and what it gave, in words that are counted.
fn kinds(call: &Transfer, outcome: &Outcome) -> Vec<&'static str> {
    let script = &call.script;
    let after = &outcome.steps[1..];
    let has =
        |step: u8, number: u8| (0..script.len()).any(|p| script[p] == step && after[p] == number);
    let accepted = (0..script.len()).find(|p| script[*p] == 255 && after[*p] == 0);
    let later = |number: u8| accepted.is_some_and(|place| after[place..].contains(&number));
    let starts = script.iter().filter(|step| **step == 254).count();
    let last = outcome.number;
    let mut all = vec![
        ("no script", script.is_empty()),
        ("no bytes", call.bytes.is_empty()),
        ("lump of none after a 9", has(0, 9)),
        ("finish after a 9", has(255, 9)),
        ("finish short, then accepted", has(255, 8) && last == 0),
        (
            "finish short, then refused by the read",
            has(255, 8) && matches!(last, 3 | 4),
        ),
        ("finish short, then 9", has(255, 8) && last == 9),
        ("accepted, then 9", later(9)),
        (
            "accepted, then 8 at the end",
            accepted.is_some() && last == 8,
        ),
        (
            "accepted, then 3 at the end",
            accepted.is_some() && last == 3,
        ),
        ("accepted twice", has(255, 0) && last == 0),
        ("one new start, then accepted", starts == 1 && last == 0),
        ("two new starts, then accepted", starts == 2 && last == 0),
        (
            "a 9, a new start, then accepted",
            after.contains(&9) && last == 0,
        ),
        (
            "a 9 twice over",
            after.windows(2).any(|pair| pair == [9, 0]) && last == 9,
        ),
        ("500 steps or more", script.len() >= 500),
    ];
    if let Some((counters, block)) = lengths(call.numbers) {
        let ends = ends_of_lumps(call);
        let sent = ends.last().copied().unwrap_or(0);
        let cut = |place: usize| ends.contains(&place);
        all.extend([
            ("accepted in one lump", ends == [block] && last == 0),
            ("accepted in single bytes", ends.len() == block && last == 0),
            (
                "cut inside the counters",
                (1..counters).any(cut) && last == 0,
            ),
            ("cut behind the counters", cut(counters) && last == 0),
            (
                "cut inside a word",
                (1..8).any(|p| cut(block - p)) && last == 0,
            ),
            (
                "a lump of none on a full block",
                ends.ends_with(&[block, block]),
            ),
            ("short by one", sent + 1 == block),
            ("over by one", sent == block + 1),
            ("over by many", sent > block + 1),
            ("over at once", ends.first().is_some_and(|end| *end > block)),
            ("64 by 64", block >= 528 && last == 0),
            (
                "more than one lump of 253",
                script.windows(2).any(|pair| pair == [253, 253]),
            ),
        ]);
    }
    all.iter()
        .filter(|kind| kind.1)
        .map(|kind| kind.0)
        .collect()
}

#[test]
fn scripts_of_every_kind_come_up_often() {
    let mut found = BTreeMap::new();
    for (call, outcome, output) in transfers(23) {
        for kind in kinds(&call, &outcome) {
            *found.entry(kind).or_insert(0) += 1;
        }
        // Where no finish was accepted, the output is as it was.
        let finishes = call.script.iter().zip(&outcome.steps[1..]);
        let any = finishes
            .filter(|(step, _)| **step == 255)
            .any(|(_, number)| *number == 0);
        if outcome.number != 0 && !any {
            assert_eq!(output, call.output);
        }
    }
    for (kind, count) in &found {
        println!("transfers, {kind}: {count}");
    }
    assert_eq!(found.len(), 28);
    assert!(found.values().all(|count| *count >= 20));
}

/// What a transfer would answer with an output of the right length.
fn number_with_right_output(call: &Transfer) -> u8 {
    let mut mended = call.clone();
    mended.output = vec![0; call.numbers[0] as usize];
    answer::make(&mut Call::Transfer(mended)).unwrap().number
}

#[test]
fn several_refusals_at_once_come_up_often() {
    let mut beside = BTreeMap::new();
    for (call, outcome, _) in transfers(24) {
        let is_wrong = call.output.len() as u64 != call.numbers[0];
        let Some((_, block)) = lengths(call.numbers) else {
            // No length is right for bad numbers, so some output and any bytes stand beside each.
            *beside.entry((1, u8::from(is_wrong))).or_insert(0) += 1;
            continue;
        };
        if is_wrong {
            let without = number_with_right_output(&call);
            *beside.entry((outcome.number, without)).or_insert(0) += 1;
        }
        // What the block would give if no more, or all of its bytes, had been sent.
        if matches!(outcome.number, 8 | 9) && call.bytes.len() >= block && !is_wrong {
            let mut whole = call.clone();
            whole.bytes.truncate(block);
            whole.script = [vec![253; block / 253], vec![(block % 253) as u8]].concat();
            let would = answer::make(&mut Call::Transfer(whole)).unwrap().number;
            *beside.entry((outcome.number, would)).or_insert(0) += 1;
        }
    }
    println!("answers, and what they would be without one damage: {beside:?}");
    let pairs: Vec<(u8, u8)> = beside.keys().copied().collect();
    let two = [(2, 0), (2, 3), (2, 4), (2, 8)];
    let eight = [(8, 0), (8, 3), (8, 4)];
    let nine = [(9, 0), (9, 3), (9, 4), (9, 9)];
    assert_eq!(pairs, [&[(1, 0), (1, 1)][..], &two, &eight, &nine].concat());
    assert!(beside.values().all(|count| *count >= 50));
}
