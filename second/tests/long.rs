//! The calls with long buffers: refused for nothing but their length or their number, and unaltered.

use second::answer;
use second::call::{next_call, put_call, Call, MOST_ELEMENTS};
use second::long;

/// The numbers that the calls answer, by their tags.
const NUMBERS: [u8; 25] = [
    2, 2, 2, 2, 2, 1, 2, 2, 2, 1, 2, 2, 2, 2, 1, 2, 2, 2, 1, 2, 2, 2, 2, 2, 1,
];

/// The lengths of a call's buffers.
fn lengths(call: &Call) -> Vec<usize> {
    match call {
        Call::PointerWrite(c) => [&c.data, &c.mask, &c.values, &c.cells, &c.metadata]
            .map(Vec::len)
            .to_vec(),
        Call::PointerRead(c) => [&c.cells, &c.metadata, &c.output].map(Vec::len).to_vec(),
        Call::GridPlan(c) => vec![c.data.len(), c.mask.len(), c.values.len(), c.counters.len()],
        Call::GridRead(c) => vec![c.cells.len(), c.counters.len(), c.output.len()],
        Call::GridStore(c) => vec![
            c.data.len(),
            c.mask.len(),
            c.values.len(),
            c.counters.len(),
            c.cells.len(),
        ],
        Call::GridConvert(c) => vec![c.counters.len(), c.output.len()],
        Call::Transfer(_) => panic!("transfers came later"),
    }
}

/// Cuts a call's long buffers to the lengths that its numbers ask for, those of P4 and G6.
fn shorten(call: &mut Call) {
    match call {
        Call::PointerWrite(c) => {
            for buffer in [&mut c.data, &mut c.mask, &mut c.values, &mut c.cells] {
                buffer.truncate(64);
            }
            c.metadata.truncate(3);
        }
        Call::PointerRead(c) => {
            c.cells.truncate(64);
            c.metadata.truncate(3);
            c.output.truncate(64);
        }
        Call::GridPlan(c) => {
            for buffer in [&mut c.data, &mut c.mask, &mut c.values] {
                buffer.truncate(3);
            }
            c.counters.truncate(2);
        }
        Call::GridStore(c) => {
            for buffer in [&mut c.data, &mut c.mask, &mut c.values, &mut c.cells] {
                buffer.truncate(3);
            }
            c.counters.truncate(2);
        }
        Call::GridRead(c) => {
            c.cells.truncate(3);
            c.counters.truncate(2);
            c.output.truncate(3);
        }
        Call::GridConvert(_) | Call::Transfer(_) => {
            unreachable!("no conversion is among the long calls")
        }
    }
}

#[test]
fn long_calls_are_refused_and_alter_nothing() {
    let calls = long::all();
    assert_eq!(calls.len(), NUMBERS.len());
    for (call, number) in calls.iter().zip(NUMBERS) {
        let mut bytes = Vec::new();
        put_call(&mut bytes, call).unwrap();
        let mut taken = next_call(&mut bytes.as_slice()).unwrap().unwrap();
        assert_eq!(&taken, call);
        let outcome = answer::make(&mut taken).unwrap();
        assert_eq!(outcome.number, number);
        assert!(outcome.counts.iter().all(|count| *count == 0));
        assert_eq!(&taken, call);
    }
}

#[test]
fn both_lengths_come_up_in_each_call_and_every_place_is_long_once() {
    let calls = long::all();
    for (first, places) in [(0, 5), (6, 3), (10, 4), (15, 3), (19, 5)] {
        let of_one_tag = &calls[first..first + places];
        let found: Vec<usize> = (0..places)
            .map(|place| lengths(&of_one_tag[place])[place])
            .collect();
        assert!(found.contains(&513) && found.contains(&MOST_ELEMENTS));
        assert!(found.iter().all(|length| *length >= 513));
        for (place, call) in of_one_tag.iter().enumerate() {
            let long = lengths(call).iter().filter(|length| **length > 64).count();
            assert_eq!(long, 1, "place {place}");
        }
    }
}

#[test]
fn without_its_long_part_a_call_is_accepted() {
    for (call, number) in long::all().iter().zip(NUMBERS) {
        if number == 2 {
            let mut short = call.clone();
            shorten(&mut short);
            assert_eq!(answer::make(&mut short).unwrap().number, 0);
        }
    }
}
