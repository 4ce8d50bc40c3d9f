//! The calls that were stored before A8 and before A1 are still made byte for byte: their lengths and a digest of their
//! bytes.

use std::process::Command;

/// The lengths of the parts stored before A8, and the digest of them all.
const LENGTHS: [usize; 3] = [71_710, 1_628_440, 133_437];
const DIGEST: u64 = 0xb66d_45a3_9635_88c9;

/// The same of the parts that were added with A8.
const LENGTHS_OF_LEVELS: [usize; 2] = [124_735, 636_173];
const DIGEST_OF_LEVELS: u64 = 0x5021_ea6f_75fb_da31;

/// What the program puts out for these arguments.
fn put_out(arguments: &[&str]) -> Vec<u8> {
    let output = Command::new(env!("CARGO_BIN_EXE_second"))
        .args(arguments)
        .output()
        .unwrap();
    assert!(output.status.success());
    output.stdout
}

/// A number that depends on every byte and its place (FNV-1a).
fn digest(bytes: &[u8]) -> u64 {
    bytes.iter().fold(0xcbf2_9ce4_8422_2325, |sum, byte| {
        (sum ^ u64::from(*byte)).wrapping_mul(0x0000_0100_0000_01b3)
    })
}

#[test]
fn the_calls_stored_before_seven_levels_are_made_as_they_were() {
    let parts = [
        put_out(&["cases"]),
        put_out(&["make", "2026", "7000", "3"]),
        put_out(&["long"]),
    ];
    assert_eq!(parts.each_ref().map(Vec::len), LENGTHS);
    assert_eq!(digest(&parts.concat()), DIGEST);
}

#[test]
fn the_calls_stored_before_transfers_are_made_as_they_were() {
    let parts = [
        put_out(&["levels"]),
        put_out(&["make", "2027", "3000", "whole"]),
    ];
    assert_eq!(parts.each_ref().map(Vec::len), LENGTHS_OF_LEVELS);
    assert_eq!(digest(&parts.concat()), DIGEST_OF_LEVELS);
}

#[test]
fn the_calls_of_transfers_are_made_alike_each_time() {
    for arguments in [&["fragments"][..], &["make", "2028", "3000"]] {
        assert_eq!(put_out(arguments), put_out(arguments));
    }
}

#[test]
fn without_the_word_whole_other_calls_are_made() {
    let before = put_out(&["make", "2027", "100", "whole"]);
    let now = put_out(&["make", "2027", "100"]);
    assert_ne!(before, now);
}

#[test]
fn without_the_3_other_calls_are_made() {
    let before = put_out(&["make", "2026", "100", "3"]);
    let now = put_out(&["make", "2026", "100"]);
    assert_ne!(before, now);
}
