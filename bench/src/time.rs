//! Times the three contestants in turns on the same inputs; the answer is the median of many rounds.

use std::hint::black_box;
use std::ops::Add;
use std::time::Instant;

use second::random::Random;

use crate::contestant::{Archive, Contestant, Peer, Second};
use crate::input::Input;

/// So many different inputs a scenario.
pub const INPUTS: usize = 256;

/// How many rounds are run, and in which of them the second program takes part: it is slow, and needs fewer.
#[derive(Clone, Copy)]
pub struct Rounds {
    pub count: usize,
    pub second_each: usize,
}

/// Nanoseconds a call, medians.
#[derive(Clone, Copy)]
pub struct Times {
    pub archive: f64,
    pub peer: f64,
    pub second: f64,
}

impl Add for Times {
    type Output = Times;

    /// The times of two calls, one after the other.
    fn add(self, other: Times) -> Times {
        Times {
            archive: self.archive + other.archive,
            peer: self.peer + other.peer,
            second: self.second + other.second,
        }
    }
}

/// The inputs of a scenario as they are before a call, those that calls are made on, and the times so far: the archive's,
/// the peer's and the second program's.
struct Bed<I> {
    before: Vec<I>,
    inputs: Vec<I>,
    times: [Vec<f64>; 3],
}

impl<I: Input> Bed<I> {
    /// A bed of these inputs.
    fn new(inputs: &[I]) -> Bed<I> {
        Bed {
            before: inputs.to_vec(),
            inputs: inputs.to_vec(),
            times: Default::default(),
        }
    }

    /// One pass of a contestant over all inputs in this order: nanoseconds a call. Restoring is not timed.
    #[inline(never)]
    fn pass<C: Contestant>(&mut self, order: &[usize]) -> f64 {
        for (input, before) in self.inputs.iter_mut().zip(&self.before) {
            input.restore(before);
        }
        let start = Instant::now();
        for place in order {
            black_box(black_box(&mut self.inputs[*place]).made_by::<C>());
        }
        start.elapsed().as_nanos() as f64 / order.len() as f64
    }

    /// A round of all three in this order of inputs; in each round another contestant is first.
    fn round(&mut self, round: usize, second_each: usize, order: &[usize]) {
        for turn in 0..3 {
            let contestant = (round + turn) % 3;
            let time = match contestant {
                0 => self.pass::<Archive>(order),
                1 => self.pass::<Peer>(order),
                _ if round.is_multiple_of(second_each) => self.pass::<Second>(order),
                _ => continue,
            };
            self.times[contestant].push(time);
        }
    }

    /// The medians of all rounds.
    fn medians(&mut self) -> Times {
        let [archive, peer, second] = &mut self.times;
        Times {
            archive: median(archive),
            peer: median(peer),
            second: median(second),
        }
    }
}

/// The median of some times.
fn median(times: &mut [f64]) -> f64 {
    times.sort_by(f64::total_cmp);
    times[times.len() / 2]
}

/// Times all three on these inputs. Each round has a new order, the same for all, so that no sequence can be learnt.
pub fn time<I: Input>(random: &mut Random, inputs: &[I], rounds: Rounds) -> Times {
    let mut bed = Bed::new(inputs);
    for round in 0..rounds.count {
        let order = random.order(inputs.len());
        bed.round(round, rounds.second_each, &order);
    }
    bed.medians()
}

/// Times all three on these inputs, and in the same rounds on as many others: the machine's speed changes, and so the two
/// can be told as a ratio.
pub fn time_beside<I: Input, J: Input>(
    random: &mut Random,
    inputs: &[I],
    others: &[J],
    rounds: Rounds,
) -> [Times; 2] {
    let (mut bed, mut beside) = (Bed::new(inputs), Bed::new(others));
    for round in 0..rounds.count {
        // The other inputs were the last to be used. A quick pass that does not count, in an order of its own, brings these
        // back to the caches, where `time` always has them.
        let [order, uncounted] = [(); 2].map(|()| random.order(inputs.len()));
        bed.pass::<Peer>(&uncounted);
        bed.round(round, rounds.second_each, &order);
        beside.pass::<Peer>(&uncounted);
        beside.round(round, rounds.second_each, &order);
    }
    [bed.medians(), beside.medians()]
}
