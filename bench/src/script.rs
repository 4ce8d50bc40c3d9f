//! A whole transfer by its script, for any contestant's record.

use second::call::Transfer;
use second::transfer::{FINISH, NEW_START};

use crate::answers::{GridReadAnswer, TransferAnswer};
use crate::records::Record;

/// The most bytes that a step of a script can send.
pub const MOST_OF_STEP: usize = NEW_START as usize - 1;

/// The steps that send so many bytes in as few lumps as it takes; at least one, which may be of no bytes.
pub fn sends(count: usize) -> Vec<u8> {
    let mut steps = vec![MOST_OF_STEP as u8; count / MOST_OF_STEP];
    if steps.is_empty() || !count.is_multiple_of(MOST_OF_STEP) {
        steps.push((count % MOST_OF_STEP) as u8);
    }
    steps
}

/// The first start, a step a script byte, and the last finish. What a lump asks for has left the bytes, taken or not.
pub fn run<R: Record>(call: &mut Transfer) -> TransferAnswer {
    let numbers = call.numbers.map(|number| number as usize);
    R::begin(numbers, |record| {
        let mut steps = vec![record.number() as u8];
        let mut left = call.bytes.as_slice();
        for step in &call.script {
            let number = match *step {
                NEW_START => {
                    record.restart(numbers);
                    record.number()
                }
                FINISH => record.finish(&mut call.output).number,
                asked => {
                    let (lump, rest) = left.split_at(left.len().min(usize::from(asked)));
                    left = rest;
                    record.lump(lump)
                }
            };
            steps.push(number as u8);
        }
        let GridReadAnswer { number, index } = record.finish(&mut call.output);
        TransferAnswer {
            number,
            index,
            steps,
        }
    })
}
