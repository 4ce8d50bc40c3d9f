//! Checks a second way which counter an answer names: by the bits of the packed counters where they stand in bytes.

/// The least width whose numbers reach K, and 1 for K = 0, of which no counters are judged.
fn width_that_reaches(most_levels: u64) -> usize {
    (64 - most_levels.leading_zeros() as usize).max(1)
}

/// The counters whose bits are in the bytes, rows first: bit q of counter t is bit w * t + q of the bytes.
pub fn counters_in_bytes(numbers: [u64; 3], packed: &[u8]) -> Vec<u64> {
    let width = width_that_reaches(numbers[2]);
    let lines = numbers[0].saturating_add(numbers[1]);
    let mut counters = Vec::new();
    let mut position = 0;
    while (counters.len() as u64) < lines && position + width <= 8 * packed.len() {
        let mut counter = 0;
        for bit in 0..width {
            counter |= u64::from(packed[position / 8] >> (position % 8) & 1) << bit;
            position += 1;
        }
        counters.push(counter);
    }
    counters
}

/// Checks the index of a read, a store or a convert: with number 4 the counter there is above K and none before it is,
/// with any other number it is 0, and where the counters were judged good, none is above K.
pub fn check_index(
    numbers: [u64; 3],
    packed: &[u8],
    number: u8,
    index: usize,
) -> Result<(), String> {
    if number != 4 {
        check_no_index(number, index)?;
    }
    let counters = counters_in_bytes(numbers, packed);
    let is_bad: Vec<bool> = counters.iter().map(|c| *c > numbers[2]).collect();
    let agrees = match number {
        4 => index < is_bad.len() && is_bad[index] && !is_bad[..index].contains(&true),
        0 | 13 => !is_bad.contains(&true),
        _ => true,
    };
    if !agrees {
        return Err(format!(
            "number {number} and index {index} for the counters {counters:?} and K = {}",
            numbers[2]
        ));
    }
    Ok(())
}

/// Checks the index of an answer that is not for a counter.
pub fn check_no_index(number: u8, index: usize) -> Result<(), String> {
    if index != 0 {
        return Err(format!(
            "number {number} has index {index}, and names no counter"
        ));
    }
    Ok(())
}
