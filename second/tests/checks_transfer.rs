//! The checks of transfers find spoilt ones, here of G2 in two lumps with a finish between, and of a block with a bad
//! counter.

use second::call::Transfer;
use second::check_transfer::check_transfer;
use second::transfer::{transfer, Answer};

/// A transfer already made, what its output held before, and its answer.
fn made(numbers: [u64; 3], bytes: &[u8], script: &[u8], before: &[u64]) -> (Transfer, Answer) {
    let mut output = before.to_vec();
    let answer = transfer(numbers, bytes, script, &mut output);
    let call = Transfer {
        numbers,
        bytes: bytes.to_vec(),
        script: script.to_vec(),
        output,
    };
    assert_eq!(check_transfer(&call, before, &answer), Ok(()));
    (call, answer)
}

/// Checks that each number, the index, each step and each bit of the output is found if it is another.
fn spoil(call: &Transfer, before: &[u64], answer: &Answer) {
    let found = |call: &Transfer, answer: &Answer| check_transfer(call, before, answer).is_err();
    for number in [0, 1, 2, 3, 4, 5, 7, 8, 9, 13] {
        if number != answer.number {
            let spoilt = Answer {
                number,
                ..answer.clone()
            };
            assert!(found(call, &spoilt), "number {number}");
        }
        for place in 0..answer.steps.len() {
            let mut spoilt = answer.clone();
            spoilt.steps[place] = number;
            assert_eq!(found(call, &spoilt), spoilt != *answer, "step {place}");
        }
    }
    for index in [0, 1, 2, 3, 255, usize::MAX] {
        let spoilt = Answer {
            index,
            ..answer.clone()
        };
        assert_eq!(found(call, &spoilt), spoilt != *answer, "index {index}");
    }
    let mut longer = answer.clone();
    longer.steps.push(answer.number);
    assert!(found(call, &longer));
    let mut shorter = answer.clone();
    shorter.steps.pop();
    assert!(found(call, &shorter));
    for bit in 0..64 * call.output.len() {
        let mut spoilt = call.clone();
        spoilt.output[bit / 64] ^= 1 << (bit % 64);
        assert!(found(&spoilt, answer), "bit {bit}");
    }
}

const G2: [u8; 9] = [3, 0, 0, 0, 0, 0, 0, 0, 0];

#[test]
fn spoilt_answers_are_found() {
    let bytes = [G2, G2].concat();
    let ends = [
        (&[4, 255, 5][..], 0),
        (&[4, 255], 8),
        (&[9, 255, 1, 0, 255], 9),
        (&[9, 255, 254, 8], 8),
        (&[10, 0, 254, 8], 8),
    ];
    for (script, number) in ends {
        let (call, answer) = made([1, 1, 1], &bytes, script, &[9]);
        assert_eq!(answer.number, number);
        spoil(&call, &[9], &answer);
    }
}

#[test]
fn spoilt_answers_of_refused_blocks_are_found() {
    // One row and one column at K = 2: counters 3 0, 2 3, and a spare bit.
    for (counters, number, index) in [(0x03, 4, 0), (0x0e, 4, 1), (0x1e, 3, 0)] {
        let mut bytes = G2;
        bytes[0] = counters;
        let (call, answer) = made([1, 1, 2], &bytes, &[9, 255], &[9]);
        assert_eq!((answer.number, answer.index), (number, index));
        spoil(&call, &[9], &answer);
    }
    let (call, answer) = made([1, 1, 1], &G2, &[9], &[9, 9]);
    assert_eq!(answer.number, 2);
    spoil(&call, &[9, 9], &answer);
    let (call, answer) = made([1, 1, 8], &G2, &[9, 254], &[9]);
    assert_eq!(answer.number, 1);
    spoil(&call, &[9], &answer);
}

#[test]
fn an_output_that_no_finish_gave_is_found() {
    // Accepted in the middle and refused at the end: the output is that of the middle, not that of before.
    let (mut call, answer) = made([1, 1, 1], &G2, &[9, 255, 254], &[9]);
    assert_eq!(call.output, [1]);
    call.output = vec![9];
    assert!(check_transfer(&call, &[9], &answer).is_err());
}
