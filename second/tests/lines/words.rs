//! Words as they print.

/// Words of one hex digit each, as they print.
pub fn words(digits: &str) -> String {
    digits
        .chars()
        .map(|digit| format!("000000000000000{digit}"))
        .collect()
}
