//! Among the calls of the agreement, transfers end with each of their numbers, are cut at every place, start anew after
//! everything, and are completed after a short finish.

use bench::agree::SEED;
use bench::answers::TransferAnswer;
use bench::calls::{Calls, NUMBERS};
use bench::contestant::Second;
use bench::input::Input;
use second::call::{Call, Transfer};
use second::make_convert::packed_length;

/// So many transfers are looked at.
const CALLS: usize = 50_000;

/// Script bytes with a name.
const NEW: u8 = 254;
const END: u8 = 255;

/// How often something came up in transfers of sound numbers.
#[derive(Debug)]
struct Seen {
    /// By the number of the last finish.
    ends: [usize; 14],
    /// Accepted, by K.
    accepted: [usize; 8],
    /// Accepted, and cut before this byte of the block; before byte 0 there is no cut.
    cuts: [usize; 560],
    /// Accepted, and sent in single bytes, or with a lump of no bytes.
    single_bytes: usize,
    empty_lumps: usize,
    /// Accepted, and cut inside the counters, right after them, between words, and before each other byte of a word.
    cut_beside: [usize; 10],
    /// New starts before any byte, in the middle, on a whole block, after an accepted finish, and after a refusal 9.
    starts: [usize; 5],
    /// Of these, the ones of transfers that end accepted.
    accepted_starts: [usize; 5],
    /// A finish with 8, lumps without a new start, and then a finish that is accepted, or refused with 3 or with 4.
    completed: [usize; 3],
    /// After a refusal 9 and before a new start: a lump of no bytes, one that would fit, and a finish.
    after_9: [usize; 3],
    /// Two accepted finishes of one start.
    repeated: usize,
    /// Ends with 9 or 8 and leaves the output of an accepted finish.
    output_stays: [usize; 2],
    /// Ends with 1, with 9 and with 2 though the output is too long or short; the last is also short of bytes.
    other_output: [usize; 3],
}

/// What a transfer has come to since its last start.
#[derive(Default)]
struct Way {
    taken: usize,
    /// What was taken before each lump that has bytes.
    lumps: Vec<usize>,
    empty_lumps: usize,
    is_over: bool,
    short_finishes: usize,
    accepted_finishes: usize,
}

impl Way {
    /// Which kind of new start one would be here.
    fn kind_of_start(&self, block: usize) -> usize {
        match self {
            Way { is_over: true, .. } => 4,
            way if way.accepted_finishes > 0 => 3,
            way if way.taken == block => 2,
            way if way.taken > 0 => 1,
            _ => 0,
        }
    }
}

/// The bytes of the counters and of the block.
fn lengths([rows, columns, k]: [u64; 3]) -> [usize; 2] {
    let counters = packed_length(rows, columns, k);
    [counters, counters + 8 * rows as usize]
}

impl Seen {
    /// Nothing yet.
    fn new() -> Seen {
        Seen {
            ends: [0; 14],
            accepted: [0; 8],
            cuts: [0; 560],
            single_bytes: 0,
            empty_lumps: 0,
            cut_beside: [0; 10],
            starts: [0; 5],
            accepted_starts: [0; 5],
            completed: [0; 3],
            after_9: [0; 3],
            repeated: 0,
            output_stays: [0; 2],
            other_output: [0; 3],
        }
    }

    /// Adds a transfer that was answered so.
    fn add(&mut self, call: &Transfer, answer: &TransferAnswer, is_altered: bool) {
        self.ends[answer.number] += 1;
        let has_other_output = call.output.len() as u64 != call.numbers[0];
        if answer.number == 1 {
            self.other_output[0] += usize::from(has_other_output);
            return;
        }
        let [counters, block] = lengths(call.numbers);
        let mut way = Way::default();
        let mut starts = [0; 5];
        let mut left = call.bytes.len();
        for (step, number) in call.script.iter().zip(&answer.steps[1..]) {
            match *step {
                NEW => {
                    starts[way.kind_of_start(block)] += 1;
                    way = Way::default();
                }
                END => self.add_finish(&mut way, usize::from(*number)),
                asked => {
                    let length = left.min(usize::from(asked));
                    left -= length;
                    self.add_lump(&mut way, block, length);
                }
            }
        }
        self.add_finish(&mut way, answer.number);
        for (kind, count) in starts.iter().enumerate() {
            self.starts[kind] += count;
            self.accepted_starts[kind] += usize::from(answer.number == 0) * count;
        }
        match answer.number {
            0 => self.add_cuts(call, &way, counters),
            8 => self.output_stays[1] += usize::from(is_altered),
            9 => {
                self.output_stays[0] += usize::from(is_altered);
                self.other_output[1] += usize::from(has_other_output);
            }
            2 => self.other_output[2] += usize::from(way.taken < block),
            _ => {}
        }
    }

    /// Adds a lump of so many bytes.
    fn add_lump(&mut self, way: &mut Way, block: usize, length: usize) {
        let fits = way.taken + length <= block;
        if way.is_over {
            self.after_9[0] += usize::from(length == 0);
            self.after_9[1] += usize::from(length > 0 && fits);
        } else if length == 0 {
            way.empty_lumps += 1;
        } else if fits {
            way.lumps.push(way.taken);
            way.taken += length;
        } else {
            way.is_over = true;
        }
    }

    /// Adds a finish.
    fn add_finish(&mut self, way: &mut Way, number: usize) {
        self.after_9[2] += usize::from(way.is_over);
        let was_short = way.short_finishes > 0;
        match number {
            0 => {
                way.accepted_finishes += 1;
                self.repeated += usize::from(way.accepted_finishes == 2);
                self.completed[0] += usize::from(was_short);
            }
            3 | 4 => self.completed[number - 2] += usize::from(was_short),
            8 => way.short_finishes += 1,
            _ => {}
        }
    }

    /// Adds where an accepted block was cut.
    fn add_cuts(&mut self, call: &Transfer, way: &Way, counters: usize) {
        self.accepted[call.numbers[2] as usize] += 1;
        self.single_bytes += usize::from(way.lumps.len() == way.taken);
        self.empty_lumps += usize::from(way.empty_lumps > 0);
        for cut in &way.lumps[1..] {
            self.cuts[*cut] += 1;
            self.cut_beside[match *cut {
                cut if cut < counters => 0,
                cut if cut == counters => 1,
                cut => 2 + (cut - counters) % 8,
            }] += 1;
        }
    }
}

#[test]
fn every_end_cut_and_start_comes_up() {
    let mut calls = Calls::new(SEED);
    let mut seen = Seen::new();
    for _ in 0..CALLS {
        let call = loop {
            if let Call::Transfer(call) = calls.next_call() {
                break call;
            }
        };
        let mut after = call.clone();
        let answer = after.made_by::<Second>();
        seen.add(&call, &answer, after.output != call.output);
    }
    for (number, times) in seen.ends.iter().enumerate() {
        let expected = NUMBERS[6].contains(&number);
        assert_eq!(*times >= 1000, expected, "{seen:?}");
        assert_eq!(*times > 0, expected, "{seen:?}");
    }
    assert!(seen.cuts[1..].iter().all(|times| *times >= 20), "{seen:?}");
    let often = [&seen.accepted[1..], &seen.cut_beside, &seen.starts];
    let often = often.into_iter().chain([&seen.accepted_starts[..]]);
    let often = often.chain([&seen.completed[..], &seen.after_9]);
    let often = often.chain([&seen.output_stays[..], &seen.other_output]);
    let alone = [seen.single_bytes, seen.empty_lumps, seen.repeated];
    let mut often = often.flatten().chain(&alone);
    assert!(often.all(|times| *times >= 200), "{seen:?}");
}
