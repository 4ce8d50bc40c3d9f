//! Conversions of document 02, A8: counters at one K to those at another that is not smaller.

use bench::answers::GridConvertAnswer;
use bench::contestant::Contestant;
use bench::input::Input;
use second::call::{GridConvert, GridRead};

use crate::blocks::{answers_unaltered, refuses, READ};

/// A conversion into so many bytes; the numbers are rows, columns, K and the target.
fn convert(numbers: [u64; 4], counters: &[u8], length: usize) -> GridConvert {
    GridConvert {
        numbers,
        counters: counters.to_vec(),
        output: vec![0xa5; length],
    }
}

/// What cells of 0 read as at this K.
fn shown<C: Contestant>([rows, columns, k]: [u64; 3], counters: &[u8]) -> Vec<u64> {
    let mut read = GridRead {
        numbers: [rows, columns, k],
        cells: vec![0; rows as usize],
        counters: counters.to_vec(),
        output: vec![u64::MAX; rows as usize],
    };
    assert_eq!(read.made_by::<C>(), READ);
    read.output
}

/// Has the conversion accepted with this output, which reads as the counters did.
fn converts<C: Contestant>(numbers: [u64; 4], counters: &[u8], output: &[u8]) {
    let mut call = convert(numbers, counters, output.len());
    let done = GridConvertAnswer {
        number: 0,
        index: 0,
    };
    assert_eq!(call.made_by::<C>(), done);
    assert_eq!(
        call,
        GridConvert {
            output: output.to_vec(),
            ..convert(numbers, counters, 0)
        }
    );
    let [rows, columns, k, target] = numbers;
    let before = shown::<C>([rows, columns, k], counters);
    assert_eq!(shown::<C>([rows, columns, target], output), before);
}

/// The counters of G2, G3, G6 and of deeper ones to every target.
pub fn accepted<C: Contestant>() {
    converts::<C>([1, 1, 1, 1], &[0x03], &[0x03]);
    for target in 2..=3 {
        converts::<C>([1, 1, 1, target], &[0x03], &[0x05]);
        converts::<C>([2, 2, 2, target], &[0x96], &[0x96]);
        converts::<C>([3, 3, target, 3], &[0x5a, 0x0a], &[0x5a, 0x0a]);
    }
    for target in 4..=7 {
        converts::<C>([1, 1, 1, target], &[0x03], &[0x09]);
        for k in 2..=3 {
            converts::<C>([2, 2, k, target], &[0x96], &[0x4a, 0x04]);
        }
        let of_g6 = [0x5a, 0x32, 0x01];
        converts::<C>([3, 3, 3, target], &[0x5e, 0x0b], &of_g6);
        // The lists do not matter, but the order does.
        converts::<C>([1, 5, 3, target], &[0x5e, 0x0b], &of_g6);
        converts::<C>([5, 1, 3, target], &[0x5e, 0x0b], &of_g6);
        for k in 4..=target {
            let of_g7 = [0xe2, 0x92, 0x51];
            converts::<C>([4, 4, k, target], &of_g7, &of_g7);
        }
        converts::<C>(
            [64, 64, 1, target],
            &[0xff; 16],
            &[0x49, 0x92, 0x24].repeat(16),
        );
        converts::<C>(
            [64, 64, 3, target],
            &[0xff; 32],
            &[0xdb, 0xb6, 0x6d].repeat(16),
        );
        let all_four = [0x24, 0x49, 0x92].repeat(16);
        converts::<C>([64, 64, 4, target], &all_four, &all_four);
    }
    converts::<C>([64, 64, 1, 3], &[0xff; 16], &[0x55; 32]);
    converts::<C>([64, 64, 7, 7], &[0xff; 48], &[0xff; 48]);
    // 22 counters of which the last alone is 1: it straddles the first two words.
    converts::<C>(
        [11, 11, 1, 7],
        &[0, 0, 0x20],
        &[0, 0, 0, 0, 0, 0, 0, 0x80, 0],
    );
    converts::<C>(
        [11, 11, 3, 7],
        &[0, 0, 0, 0, 0, 0x0c],
        &[0, 0, 0, 0, 0, 0, 0, 0x80, 0x01],
    );
}

/// Numbers outside their range, and every target that is smaller than K.
pub fn numbers<C: Contestant>() {
    for numbers in [
        [0, 2, 4, 7],
        [65, 2, 4, 7],
        [2, 0, 4, 7],
        [2, 65, 4, 7],
        [2, 2, 0, 7],
        [2, 2, 0, 0],
        [2, 2, 8, 7],
        [2, 2, 8, 8],
        [2, 2, 4, 0],
        [2, 2, 4, 8],
        [2, 2, u64::MAX, u64::MAX],
        [2, 2, 4, 1 << 32 | 4],
    ] {
        refuses::<C, _>(&convert(numbers, &[0, 0], 2), 1);
    }
    for (k, target) in (2..=7).flat_map(|k| (1..k).map(move |target| (k, target))) {
        let bytes = |k: u64| if k < 4 { 1 } else { 2 };
        let call = convert([2, 2, k, target], &vec![0; bytes(k)], bytes(target));
        refuses::<C, _>(&call, 1);
    }
    // Whatever else is wrong: a length, a spare bit, a counter above K.
    refuses::<C, _>(&convert([2, 2, 4, 3], &[0x05, 0x10], 7), 1);
}

/// Each buffer a byte off, and with the length of the other's width.
pub fn lengths<C: Contestant>() {
    for (numbers, counters, output) in [
        ([3, 5, 1, 2], 1, 2),
        ([3, 5, 1, 7], 1, 3),
        ([3, 5, 3, 4], 2, 3),
        ([3, 5, 4, 7], 3, 3),
        ([64, 64, 1, 3], 16, 32),
        ([64, 64, 3, 7], 32, 48),
    ] {
        for (of_counters, of_output) in [
            (counters - 1, output),
            (counters + 1, output),
            (counters, output - 1),
            (counters, output + 1),
            (counters, 0),
            (0, output),
        ] {
            let call = convert(numbers, &vec![0; of_counters], of_output);
            refuses::<C, _>(&call, 2);
        }
        if counters != output {
            refuses::<C, _>(&convert(numbers, &vec![0; counters], counters), 2);
            refuses::<C, _>(&convert(numbers, &vec![0; output], output), 2);
            refuses::<C, _>(&convert(numbers, &vec![0; output], counters), 2);
        }
    }
    // Before a spare bit and a counter above K.
    refuses::<C, _>(&convert([1, 2, 4, 7], &[0x5c, 0x03], 3), 2);
}

/// Spare bits of the counters, and counters above K though the target allows them.
pub fn counters<C: Contestant>() {
    refuses::<C, _>(&convert([1, 2, 1, 7], &[0x08], 2), 3);
    refuses::<C, _>(&convert([1, 2, 3, 7], &[0x40], 2), 3);
    for spare in [0x02, 0x04, 0x80] {
        refuses::<C, _>(&convert([1, 2, 4, 7], &[0x00, spare], 2), 3);
        // Before a counter above K: column 1 is 5.
        refuses::<C, _>(&convert([1, 2, 4, 4], &[0x5c, 0x01 | spare], 2), 3);
    }
    let bad = |numbers, counters: &[u8], length, index| {
        let answer = GridConvertAnswer { number: 4, index };
        answers_unaltered::<C, _>(&convert(numbers, counters, length), answer);
    };
    for target in [2, 3, 4, 7] {
        bad([2, 3, 2, target], &[0xe4, 0x03], 2, 3);
        bad([2, 3, 2, target], &[0x0c, 0x03], 2, 1);
    }
    for target in 4..=7 {
        // Counters 4, 3 and 5; then 5, 7 and 0, and 0, 6 and 7.
        bad([1, 2, 4, target], &[0x5c, 0x01], 2, 2);
        bad([1, 2, 4, target], &[0x3d, 0x00], 2, 0);
        bad([1, 2, 4, target], &[0xf0, 0x01], 2, 1);
    }
    bad([1, 2, 5, 7], &[0xf0, 0x01], 2, 1);
    bad([1, 2, 6, 7], &[0xf0, 0x01], 2, 2);
    converts::<C>([1, 2, 7, 7], &[0xf0, 0x01], &[0xf0, 0x01]);
    let mut last = [0; 48];
    last[47] = 0xc0;
    bad([64, 64, 5, 7], &last, 48, 127);
}
