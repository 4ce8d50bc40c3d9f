//! Every short script of a few steps, for the smallest block and its edges: the checks agree, and each step answers as
//! the bytes before it say.

use second::answer;
use second::call::{Call, Transfer};
use second::transfer::Record;

/// Steps around the nine bytes of the smallest block.
const STEPS: [u8; 7] = [0, 1, 8, 9, 10, 254, 255];

/// All scripts of so many of these steps.
fn scripts(length: u32) -> Vec<Vec<u8>> {
    let count = STEPS.len();
    (0..count.pow(length))
        .map(|number| {
            (0..length)
                .map(|place| STEPS[number / count.pow(place) % count])
                .collect()
        })
        .collect()
}

/// Makes a transfer into junk, and gives its number and steps.
fn outcome(numbers: [u64; 3], script: &[u8], bytes: &[u8], words: usize) -> (u8, Vec<u8>) {
    let call = Transfer {
        numbers,
        bytes: bytes.to_vec(),
        script: script.to_vec(),
        output: vec![u64::MAX; words],
    };
    let outcome = answer::make(&mut Call::Transfer(call)).unwrap();
    assert_eq!(outcome.steps.len(), script.len() + 1);
    (outcome.number, outcome.steps)
}

#[test]
fn every_script_of_five_steps_agrees_with_the_checks() {
    // Each nine bytes from any place on are counters 1 1 and a cell, or are refused with 3.
    let bytes = [
        3, 1, 0, 0, 0, 0, 0, 0, 0, 3, 0, 0, 0, 0, 0, 0, 0, 0, 3, 1, 0, 0,
    ];
    let mut numbers = [0; 10];
    for length in 0..=5 {
        for script in scripts(length) {
            for end in [0, 8, 9, 10, 18, 22] {
                let (number, steps) = outcome([1, 1, 1], &script, &bytes[..end], 1);
                numbers[usize::from(number)] += 1;
                assert_eq!(steps[0], 0);
                // A new start is never refused, and what stands before it does not count for what follows.
                if let Some(place) = script.iter().rposition(|step| *step == 254) {
                    assert_eq!(steps[place + 1], 0);
                    let lumps = script[..place].iter().filter(|step| **step < 254);
                    let sent: usize = lumps.map(|step| usize::from(*step)).sum();
                    let rest = &bytes[sent.min(end)..end];
                    let alone = outcome([1, 1, 1], &script[place + 1..], rest, 1);
                    assert_eq!(alone, (number, steps[place + 1..].to_vec()));
                }
                // After a 9 there are only 9s up to a new start.
                for place in 0..script.len() {
                    if steps[place] == 9 && script[place] != 254 {
                        assert_eq!(steps[place + 1], 9);
                    }
                }
            }
        }
    }
    println!("scripts of up to five steps, by number: {numbers:?}");
    assert!([0, 3, 8, 9].iter().all(|number| numbers[*number] >= 100));
}

#[test]
fn bad_numbers_and_other_outputs_answer_alike_in_every_script() {
    for script in scripts(4) {
        let bytes = [0; 22];
        let bad = outcome([1, 1, 8], &script, &bytes, 1);
        assert_eq!(bad, (1, vec![1; 5]));
        let (number, steps) = outcome([1, 1, 1], &script, &bytes, 2);
        assert!(number == 2 || number == 9);
        for (place, step) in script.iter().enumerate() {
            let allowed: &[u8] = match step {
                254 => &[0],
                255 => &[2, 9],
                _ => &[0, 9],
            };
            assert!(allowed.contains(&steps[place + 1]));
        }
    }
}

#[test]
fn a_record_is_the_same_after_a_finish() {
    let (mut record, started) = Record::start([2, 3, 2]);
    assert_eq!(started, 0);
    assert_eq!(record.lump(&[0x39, 0x01, 3, 0, 0, 0, 0, 0, 0, 0]), 0);
    let mut output = [7, 7];
    for _ in 0..3 {
        assert_eq!(record.finish(&mut output).number, 8);
        assert_eq!(record.finish(&mut [7]).number, 2);
        assert_eq!(record.lump(&[]), 0);
    }
    assert_eq!(record.lump(&[6, 0, 0, 0, 0, 0, 0, 0]), 0);
    for _ in 0..3 {
        let answer = record.finish(&mut output);
        assert_eq!((answer.number, answer.index), (4, 2));
        assert_eq!(record.lump(&[]), 0);
    }
    assert_eq!(record.lump(&[0]), 9);
    assert_eq!(record.lump(&[]), 9);
    let answer = record.finish(&mut output);
    assert_eq!((answer.number, answer.index), (9, 0));
    assert_eq!(output, [7, 7]);
}
