//! Counters as they print.

/// Counters, a decimal digit each, in so many bits, lowest first, as their bytes print.
pub fn counters(width: usize, digits: &str) -> String {
    let mut bits = Vec::new();
    for digit in digits.chars() {
        let counter = digit.to_digit(10).unwrap();
        bits.extend((0..width).map(|bit| counter >> bit & 1));
    }
    let mut text = String::new();
    for byte in bits.chunks(8) {
        let value = byte.iter().rev().fold(0, |sum, bit| 2 * sum + bit);
        text.push_str(&format!("{value:02x}"));
    }
    text
}
