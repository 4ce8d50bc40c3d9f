//! The conversion of counters from one K to another that is not smaller (document 02, A8): each counter keeps its
//! number, in the width of the other K.

use crate::counters::{judged_shape, packed_counters, Shape};
use crate::grid::ReadAnswer;
use crate::judge_grid::{judge_lengths, judged_counters, Refusal};

/// Refusal 1: the rows, the columns, K or the target lie outside their range, or the target is smaller than K.
/// Otherwise the shape at K and the shape at the target.
fn judged_shapes(numbers: [u64; 4]) -> Result<(Shape, Shape), u8> {
    let [rows, columns, most_levels, target] = numbers;
    let before = judged_shape(rows, columns, most_levels)?;
    let after = judged_shape(rows, columns, target)?;
    if after.most_levels < before.most_levels {
        return Err(1);
    }
    Ok((before, after))
}

/// Works out the counters at the target, or the lowest refusal of 1, 2, 3 and 4; of the output its length alone counts.
fn converted(numbers: [u64; 4], packed: &[u8], output_length: usize) -> Result<Vec<u8>, Refusal> {
    let (before, after) = judged_shapes(numbers)?;
    judge_lengths(before, &[], packed.len())?;
    judge_lengths(after, &[], output_length)?;
    let counters = judged_counters(before, packed)?;
    Ok(packed_counters(after, &counters))
}

/// The conversion for the numbers rows, columns, K and target: answers 0 and fills the output, or answers the refusal
/// and alters nothing.
pub fn convert(numbers: [u64; 4], counters: &[u8], output: &mut [u8]) -> ReadAnswer {
    match converted(numbers, counters, output.len()) {
        Err(Refusal { number, index }) => ReadAnswer { number, index },
        Ok(packed) => {
            output.copy_from_slice(&packed);
            ReadAnswer {
                number: 0,
                index: 0,
            }
        }
    }
}
