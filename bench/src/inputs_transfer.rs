//! Inputs for timing blocks that arrive in lumps: the lengths of the lumps are worked out before, and all three are driven
//! alike, from the start to the finish.

use std::rc::Rc;

use second::call::GridRead;
use second::make_transfer::joined;

use crate::answers::{Figures, GridReadAnswer};
use crate::contestant::{Contestant, Second};
use crate::input::Input;
use crate::records::Record;

/// How a block is cut into lumps.
#[derive(Clone, Copy)]
pub enum Cut {
    Nowhere,
    InEight,
    Everywhere,
}

/// A block that arrives: rows, columns and K, its bytes, the length of each lump, and the output. Blocks of one scenario have
/// the same lengths, and so share them: a list for each would push the blocks out of the caches.
#[derive(Clone)]
pub struct Arrival {
    pub numbers: [usize; 3],
    pub bytes: Vec<u8>,
    pub lumps: Rc<[usize]>,
    pub output: Vec<u64>,
}

impl Input for Arrival {
    type Answer = GridReadAnswer;

    /// The start, all lumps and the finish; as a caller would, it stops at the first refusal.
    #[inline(always)]
    fn made_by<C: Contestant>(&mut self) -> GridReadAnswer {
        C::Record::begin(self.numbers, |record| {
            if record.number() != 0 {
                return GridReadAnswer::refused(record.number());
            }
            let mut left = self.bytes.as_slice();
            for length in self.lumps.iter() {
                let (lump, rest) = left.split_at(*length);
                left = rest;
                let number = record.lump(lump);
                if number != 0 {
                    return GridReadAnswer::refused(number);
                }
            }
            record.finish(&mut self.output)
        })
    }

    fn restore(&mut self, before: &Arrival) {
        self.output.copy_from_slice(&before.output);
    }
}

/// The lengths of lumps of so many bytes, as equal as can be.
fn equal_lumps(bytes: usize, count: usize) -> Vec<usize> {
    (0..count)
        .map(|lump| bytes * (lump + 1) / count - bytes * lump / count)
        .collect()
}

/// The blocks of accepted reads, all of one size and K, arriving.
pub fn arrivals(reads: &[GridRead], cut: Cut) -> Vec<Arrival> {
    let bytes = joined(&reads[0]).len();
    let lumps: Rc<[usize]> = match cut {
        Cut::Nowhere => equal_lumps(bytes, 1),
        Cut::InEight => equal_lumps(bytes, 8),
        Cut::Everywhere => equal_lumps(bytes, bytes),
    }
    .into();
    let mut arriving = Vec::new();
    for read in reads {
        let arrival = Arrival {
            numbers: read.numbers.map(|number| number as usize),
            bytes: joined(read),
            lumps: lumps.clone(),
            output: read.output.clone(),
        };
        // What arrives has to be read as the whole block is.
        let (mut arrived, mut whole) = (arrival.clone(), read.clone());
        assert_eq!(arrived.made_by::<Second>(), GridReadAnswer::default());
        assert_eq!(whole.made_by::<Second>(), GridReadAnswer::default());
        assert_eq!(arrived.output, whole.output);
        arriving.push(arrival);
    }
    arriving
}

#[cfg(test)]
mod tests {
    use super::equal_lumps;

    #[test]
    fn lumps_are_as_equal_as_can_be() {
        assert_eq!(equal_lumps(66, 1), [66]);
        assert_eq!(equal_lumps(66, 8), [8, 8, 8, 9, 8, 8, 8, 9]);
        assert_eq!(equal_lumps(9, 9), [1; 9]);
    }
}
