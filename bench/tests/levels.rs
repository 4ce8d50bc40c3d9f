//! Among the calls of the agreement, plans and stores have every K with every L up to it, and counters end at every bit of a
//! byte, in one word or in several.

use bench::agree::SEED;
use bench::calls::Calls;
use bench::contestant::Second;
use bench::input::Input;
use second::call::Call;

/// So many plans, stores and reads are looked at together.
const CALLS: usize = 120_000;

/// How often something came up, by K and by some other number.
type Counts = [[usize; 8]; 8];

/// What is looked at, in accepted calls of one kind.
#[derive(Debug, Default)]
struct Seen {
    /// By K and L.
    levels: Counts,
    /// By K and the bits of the counters in the last byte, where 0 is a whole one.
    last_bits: Counts,
    /// By K and the words that the counters take.
    words: Counts,
}

impl Seen {
    /// Adds an accepted call.
    fn add(&mut self, numbers: [u64; 3], levels: usize) {
        let [rows, columns, k] = numbers.map(|number| number as usize);
        let width = [0, 1, 2, 2, 3, 3, 3, 3][k];
        let bits = width * (rows + columns);
        self.levels[k][levels] += 1;
        self.last_bits[k][bits % 8] += 1;
        self.words[k][bits.div_ceil(64)] += 1;
    }

    /// Whether the counters of every K ended at every bit that they can, and took every count of words.
    fn has_all_sizes(&self) -> bool {
        (1..=7).all(|k| {
            let step = if (2..=3).contains(&k) { 2 } else { 1 };
            let most_words = [0, 2, 4, 4, 6, 6, 6, 6][k];
            self.last_bits[k]
                .iter()
                .step_by(step)
                .all(|count| *count >= 50)
                && self.words[k][1..=most_words]
                    .iter()
                    .all(|count| *count >= 5)
        })
    }

    /// Whether every K came up with every L from 0 to K.
    fn has_all_levels(&self) -> bool {
        (1..=7).all(|k| self.levels[k][..=k].iter().all(|count| *count >= 20))
    }
}

#[test]
fn every_level_of_every_k_and_every_end_of_counters_come_up() {
    let mut calls = Calls::new(SEED);
    let [mut plans, mut stores, mut reads]: [Seen; 3] = Default::default();
    // Refused with 7, by K.
    let mut too_deep = [0; 8];
    let mut looked_at = 0;
    while looked_at < CALLS {
        looked_at += 1;
        match calls.next_call() {
            Call::GridPlan(mut c) => match c.made_by::<Second>() {
                answer if answer.number == 0 => plans.add(c.numbers, answer.levels),
                answer if answer.number == 7 => too_deep[c.numbers[2] as usize] += 1,
                _ => {}
            },
            Call::GridStore(mut c) => {
                let answer = c.made_by::<Second>();
                if answer.number == 0 {
                    stores.add(c.numbers, answer.levels);
                }
            }
            Call::GridRead(mut c) => {
                if c.made_by::<Second>().number == 0 {
                    reads.add(c.numbers, 0);
                }
            }
            _ => looked_at -= 1,
        }
    }
    assert!(
        plans.has_all_levels() && stores.has_all_levels(),
        "{plans:?} {stores:?}"
    );
    for seen in [plans, stores, reads] {
        assert!(seen.has_all_sizes(), "{seen:?}");
    }
    assert!(
        too_deep[1..].iter().all(|count| *count >= 100),
        "{too_deep:?}"
    );
}
