//! Among the calls of the agreement, reads, stores and conversions with counters above K are many: at every such K, in
//! every place, and beside every other refusal.

use bench::agree::SEED;
use bench::answers::Answer;
use bench::calls::Calls;
use bench::contestant::Second;
use bench::input::Input;
use second::call::{Call, GridStore};
use second::counters::{counter_width, stored_counter};

/// So many reads, stores and conversions are looked at together.
const CALLS: usize = 60_000;

/// Every K that a counter of its width can be above.
const EXCEEDED: [u64; 4] = [2, 4, 5, 6];

/// How often the calls of one kind had bad counters, and which.
#[derive(Debug, Default)]
struct Seen {
    calls: usize,
    /// Refused with 4, by the K that is exceeded.
    refused_with_4: [usize; 4],
    /// One bad counter: the first row, the last, the first column, the last, and any other.
    alone: [usize; 5],
    /// Several bad counters: rows alone, columns alone, and both.
    several: [usize; 3],
    /// A later one is greater than the first, at K = 4 and at K = 5.
    first_is_not_greatest: [usize; 2],
    /// Refused with 1, 2 and 3, where else a counter would be named, and not by 0.
    beside_lower: [usize; 3],
    /// Refused with 4, and a stuck cell would read wrong.
    beside_misread: usize,
}

/// The places and the values of the counters above K, which can be exceeded.
fn bad_ones(k: u64, counters: &[u8]) -> Vec<(usize, usize)> {
    let width = counter_width(k as usize);
    (0..8 * counters.len() / width)
        .map(|place| (place, stored_counter(counters, width, place)))
        .filter(|(_, counter)| *counter > k as usize)
        .collect()
}

impl Seen {
    /// Adds a call that is refused with this number or accepted.
    fn add(&mut self, number: usize, [rows, columns, k]: [u64; 3], counters: &[u8]) {
        self.calls += 1;
        let Some(exceeded) = EXCEEDED.iter().position(|one| *one == k) else {
            assert_ne!(number, 4);
            return;
        };
        let bad = bad_ones(k, counters);
        let named = bad.first().is_some_and(|(first, _)| *first > 0);
        if (1..=3).contains(&number) && named {
            self.beside_lower[number - 1] += 1;
        }
        if number != 4 {
            return;
        }
        self.refused_with_4[exceeded] += 1;
        let rows = rows as usize;
        if let [(place, _)] = bad.as_slice() {
            let ends = [0, rows - 1, rows, rows + columns as usize - 1];
            let end = ends.iter().position(|end| end == place).unwrap_or(4);
            self.alone[end] += 1;
            return;
        }
        let in_columns = bad.iter().filter(|(place, _)| *place >= rows).count();
        let list = match in_columns {
            0 => 0,
            count if count == bad.len() => 1,
            _ => 2,
        };
        self.several[list] += 1;
        if bad.iter().any(|(_, counter)| *counter > bad[0].1) {
            self.first_is_not_greatest[exceeded - 1] += 1;
        }
    }

    /// Whether all of it came up often.
    fn is_enough(&self) -> bool {
        let places = self.alone.iter().chain(&self.several);
        let each = places.chain(&self.refused_with_4);
        let each = each.chain(&self.first_is_not_greatest);
        self.refused_with_4.iter().sum::<usize>() * 10 > self.calls
            && each
                .chain(&self.beside_lower)
                .all(|count| *count * 200 > self.calls)
    }
}

/// The number that the second program answers.
fn number(call: &impl Input) -> usize {
    call.clone().made_by::<Second>().number()
}

/// Whether a stuck cell of a store would read wrong, were its counters not too high.
fn misreads(call: &GridStore) -> bool {
    let mut higher = call.clone();
    higher.numbers[2] = if call.numbers[2] == 2 { 3 } else { 7 };
    number(&higher) == 13
}

#[test]
fn bad_counters_come_up_in_every_place_and_beside_every_refusal() {
    let mut calls = Calls::new(SEED);
    let mut seen: [Seen; 3] = Default::default();
    while seen.iter().map(|one| one.calls).sum::<usize>() < CALLS {
        match calls.next_call() {
            Call::GridRead(c) => seen[0].add(number(&c), c.numbers, &c.counters),
            Call::GridStore(c) => {
                let number = number(&c);
                seen[1].add(number, c.numbers, &c.counters);
                seen[1].beside_misread += usize::from(number == 4 && misreads(&c));
            }
            Call::GridConvert(c) => {
                let [rows, columns, k, _] = c.numbers;
                seen[2].add(number(&c), [rows, columns, k], &c.counters);
            }
            _ => {}
        }
    }
    for one in &seen {
        assert!(one.is_enough(), "{one:?}");
    }
    assert!(seen[1].beside_misread * 100 > seen[1].calls, "{seen:?}");
}
