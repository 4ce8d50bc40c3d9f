//! The lines of transfers.

use crate::lines::junk;

/// Words of one hex digit each, the numbers of the steps a digit each, and the last finish's number and index, as
/// they print.
pub fn line(answer: &str, digits: &str, steps: &str) -> String {
    let words: String = digits
        .chars()
        .map(|digit| format!("000000000000000{digit}"))
        .collect();
    line_of(answer, &words, steps)
}

/// The same with an output that holds so many words of junk, as it did before.
pub fn left(answer: &str, words: usize, steps: &str) -> String {
    let output = if words == 0 {
        String::from("-")
    } else {
        junk(8 * words)
    };
    line_of(answer, &output, steps)
}

/// The same with an output as it prints.
pub fn line_of(answer: &str, output: &str, steps: &str) -> String {
    let steps: String = steps.chars().map(|digit| format!("0{digit}")).collect();
    format!("{answer} {output} {steps}")
}
