//! How a case of A1 is written: a block as bytes, and a transfer with its script. Most cases send one of two blocks of
//! two rows and three columns, of 18 bytes each.

use crate::call::{Call, Transfer};
use crate::cases_pointer::Case;

/// What an output holds before a transfer.
const JUNK_WORD: u64 = 0xa5a5_a5a5_a5a5_a5a5;

/// Script bytes with a name.
pub const NEW: u8 = 254;
pub const END: u8 = 255;

/// The numbers of the two blocks that most cases send: two rows, three columns, K = 3.
pub const SMALL: [u64; 3] = [2, 3, 3];

/// The bytes of a block: the counters, then each word, lowest byte first.
pub fn block(counters: &[u8], words: &[u64]) -> Vec<u8> {
    let mut bytes = counters.to_vec();
    for word in words {
        for place in 0..8 {
            bytes.push((word >> (8 * place)) as u8);
        }
    }
    bytes
}

/// Counters 1 2, 3 0 1 and cells 3 6: they read as 6 2.
pub fn one() -> Vec<u8> {
    block(&[0x39, 0x01], &[3, 6])
}

/// Counters 0 and cells 5 1, which read as they are.
pub fn other() -> Vec<u8> {
    block(&[0x00, 0x00], &[5, 1])
}

/// A transfer as a case, into so many words of junk.
pub fn into(name: &str, numbers: [u64; 3], bytes: &[u8], script: &[u8], words: usize) -> Case {
    let call = Transfer {
        numbers,
        bytes: bytes.to_vec(),
        script: script.to_vec(),
        output: vec![JUNK_WORD; words],
    };
    (format!("A1 {name}"), Call::Transfer(call))
}

/// A transfer as a case, into a word of junk a row.
pub fn case(name: &str, numbers: [u64; 3], bytes: &[u8], script: &[u8]) -> Case {
    into(name, numbers, bytes, script, numbers[0] as usize)
}

/// A transfer of two rows and three columns at K = 3 as a case.
pub fn small(name: &str, bytes: &[u8], script: &[u8]) -> Case {
    case(name, SMALL, bytes, script)
}
