//! Damage that any call can take: wrong lengths, and numbers outside their range.

use crate::random::Random;

/// Damaged buffers get no longer than this, so that calls stay small; `long.rs` has the longer ones.
const LONGEST: usize = 512;

/// Numbers at the extremes of their type.
const EXTREMES: [u64; 12] = [
    0,
    66,
    128,
    255,
    256,
    1 << 16,
    1 << 32,
    (1 << 32) - 1,
    1 << 63,
    (1 << 63) - 1,
    u64::MAX - 1,
    u64::MAX,
];

/// A length that a buffer of the given length should not have: by one, by many, none at all or the longest.
fn other_length(random: &mut Random, length: usize) -> usize {
    let other = match random.below(14) {
        0..=3 => length + 1,
        4..=7 if length > 0 => length - 1,
        8 => 0,
        9 => length + random.between(2, 9),
        10 | 11 if length > 2 => random.below(length - 1),
        12 => length + 8,
        13 if random.percent(30) => LONGEST,
        _ => length * 2,
    };
    other.min(LONGEST)
}

/// Gives a buffer of bytes a wrong length; added bytes are zero or junk.
pub fn resize_bytes(random: &mut Random, buffer: &mut Vec<u8>) {
    let length = other_length(random, buffer.len());
    let filler = if random.bit() { 0 } else { random.byte() };
    buffer.resize(length, filler);
}

/// Gives a buffer of words a wrong length; added words are zero or junk.
pub fn resize_words(random: &mut Random, buffer: &mut Vec<u64>) {
    let length = other_length(random, buffer.len());
    let filler = if random.bit() { 0 } else { random.word() };
    buffer.resize(length, filler);
}

/// A number outside the range from 1 to the most, often one that looks right once it is narrowed.
pub fn number_outside(random: &mut Random, number: u64, most: u64) -> u64 {
    let right = number.clamp(1, most);
    match random.below(8) {
        0 => 0,
        1 | 2 => most + 1,
        3 => right + (1 << random.pick(&[8, 16, 32, 48, 63])),
        4 => random.pick(&EXTREMES),
        5 => 0u64.wrapping_sub(random.between(1, 70) as u64),
        6 => most + 1 + random.below(70) as u64,
        _ => random.word() | (1 << random.between(7, 63)),
    }
}

/// A number at or just beside its limits, inside its range or outside.
pub fn number_near_limit(random: &mut Random, number: u64, most: u64) -> u64 {
    let right = number.clamp(1, most);
    random.pick(&[0, 1, 2, right + 1, right - 1, most - 1, most, most + 1])
}
