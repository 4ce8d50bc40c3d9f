//! Checks cases against lines that were derived by hand.

use second::answer;
use second::call::{next_call, put_call, Call};

/// So many bytes of junk, as old cells and outputs hold it before a call.
pub fn junk(bytes: usize) -> String {
    "a5".repeat(bytes)
}

/// Checks that the cases have these names and print these lines.
pub fn check(cases: &[(String, Call)], lines: &[(&str, String)]) {
    let names: Vec<&str> = cases.iter().map(|(name, _)| name.as_str()).collect();
    let expected: Vec<&str> = lines.iter().map(|(name, _)| *name).collect();
    assert_eq!(names, expected);
    for ((name, call), (_, line)) in cases.iter().zip(lines) {
        let mut bytes = Vec::new();
        put_call(&mut bytes, call).unwrap();
        let mut taken = next_call(&mut bytes.as_slice()).unwrap().unwrap();
        assert_eq!(&taken, call, "{name}");
        let outcome = answer::make(&mut taken).unwrap();
        assert_eq!(&answer::line(&taken, &outcome), line, "{name}");
    }
}
