//! What the calls answer: the archive's own structs, for all three contestants; and what a whole transfer does, which is many calls.

use std::fmt::Debug;

pub use crate::raw::{GridAnswer, GridConvertAnswer, GridReadAnswer};
pub use crate::raw::{PointerReadAnswer, PointerWriteAnswer};

/// An answer of some kind of call: a number, and what else that kind answers.
pub trait Answer: Clone + Debug + PartialEq {
    /// The number: 0, or the refusal.
    fn number(&self) -> usize;
}

/// An answer that has nothing but figures beside its number.
pub trait Figures: Answer + Copy {
    /// The answer of a call that is refused: every figure is 0. With number 4 a grid call then puts its index in.
    fn refused(number: usize) -> Self;
}

/// What a whole transfer answers: the number and the index of its last finish, and the numbers of the first start and of
/// each step of its script.
#[derive(Clone, Debug, PartialEq, Eq)]
pub struct TransferAnswer {
    pub number: usize,
    pub index: usize,
    pub steps: Vec<u8>,
}

impl Answer for TransferAnswer {
    fn number(&self) -> usize {
        self.number
    }
}

/// Makes each of these structs an answer of figures, so that what a refused one is stands once.
macro_rules! answers {
    ($($answer:ty),*) => {$(
        impl Answer for $answer {
            #[inline(always)]
            fn number(&self) -> usize {
                self.number
            }
        }

        impl Figures for $answer {
            #[inline(always)]
            #[allow(clippy::needless_update)] // a pointer read has nothing but the number
            fn refused(number: usize) -> Self {
                Self { number, ..Self::default() }
            }
        }
    )*};
}

answers!(
    PointerReadAnswer,
    PointerWriteAnswer,
    GridReadAnswer,
    GridConvertAnswer,
    GridAnswer
);
