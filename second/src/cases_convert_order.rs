//! Conversions to which several refusals apply (document 02, A8): the lowest is the answer. Beside them each by itself.

use crate::cases_pointer::Case;
use crate::levels_case::convert;

/// Each pair of refusals together, the lowest of which is the answer; 1 for each of its reasons.
pub fn all() -> Vec<Case> {
    // One row and two columns at K = 4: counters 4, 3 and 5 with a spare bit, 4, 3 and 4 with one, and 4, 3 and 5.
    let bad_and_spare = [0x5c, 0x03];
    let spare = [0x1c, 0x03];
    let bad = [0x5c, 0x01];
    let mut cases = Vec::new();
    for numbers in [
        [0, 2, 4, 7],
        [1, 65, 4, 7],
        [1, 2, 0, 7],
        [1, 2, 8, 8],
        [1, 2, 4, 8],
        [1, 2, 4, 3],
    ] {
        for (name, counters, output) in [
            ("1 before 2", &[0x1c, 0x01][..], 3),
            ("1 before 2, of the counters", &[0x1c][..], 2),
            ("1 before 3", &spare[..], 2),
            ("1 before 4", &bad[..], 2),
            ("1 before all", &bad_and_spare[..], 1),
        ] {
            cases.push(convert(
                &format!("A8 convert, {name}, {numbers:?}"),
                numbers,
                counters,
                output,
            ));
        }
    }
    // A target that is smaller, with the length of its own width.
    cases.push(convert(
        "A8 convert, 1 before 3, 4 to 3",
        [1, 2, 4, 3],
        &spare,
        1,
    ));
    cases.push(convert(
        "A8 convert, 1 before 4, 4 to 3",
        [1, 2, 4, 3],
        &bad,
        1,
    ));
    for target in [4, 7] {
        for (name, counters, output) in [
            ("2 before 3", &spare[..], 1),
            ("2 before 4", &bad[..], 3),
            ("2 before 3 and 4", &bad_and_spare[..], 0),
            ("2 before 4, of the counters", &[0x5c, 0x01, 0x00][..], 2),
            ("3 before 4", &bad_and_spare[..], 2),
            ("3 alone", &spare[..], 2),
            ("4 alone", &bad[..], 2),
            ("none", &[0x1c, 0x01][..], 2),
        ] {
            cases.push(convert(
                &format!("A8 convert, {name}, 4 to {target}"),
                [1, 2, 4, target],
                counters,
                output,
            ));
        }
    }
    cases
}
