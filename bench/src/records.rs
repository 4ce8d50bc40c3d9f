//! What carries a transfer from call to call, for each contestant, under one set of names.

use std::mem::MaybeUninit;

use second::transfer::Record as SecondRecord;

use crate::answers::GridReadAnswer;
use crate::archive_transfer::{self, Transfer};
use crate::peer;

/// A transfer on its way, as its caller keeps it: it is made in one place and stays there.
pub trait Record: Sized {
    /// The first start, and what is done with the record; the numbers are rows, columns and K.
    fn begin<T>(numbers: [usize; 3], then: impl FnOnce(&mut Self) -> T) -> T;

    /// A new start in the same place.
    fn restart(&mut self, numbers: [usize; 3]);

    /// What the last start or lump answered.
    fn number(&self) -> usize;

    /// Takes a lump, or refuses it; answers the number.
    fn lump(&mut self, lump: &[u8]) -> usize;

    /// Finishes the block.
    fn finish(&self, out: &mut [u64]) -> GridReadAnswer;
}

/// The archive's record, and what its last start or lump answered. A start fills all of it, so nothing is made before.
pub struct ArchiveRecord {
    transfer: MaybeUninit<Transfer>,
    number: usize,
}

impl Record for ArchiveRecord {
    #[inline(always)]
    fn begin<T>(numbers: [usize; 3], then: impl FnOnce(&mut ArchiveRecord) -> T) -> T {
        let mut record = ArchiveRecord {
            transfer: MaybeUninit::uninit(),
            number: 0,
        };
        record.restart(numbers);
        then(&mut record)
    }

    #[inline(always)]
    fn restart(&mut self, numbers: [usize; 3]) {
        self.number = archive_transfer::start(&mut self.transfer, numbers);
    }

    #[inline(always)]
    fn number(&self) -> usize {
        self.number
    }

    #[inline(always)]
    fn lump(&mut self, lump: &[u8]) -> usize {
        // SAFETY: a start has filled it.
        let transfer = unsafe { self.transfer.assume_init_mut() };
        self.number = archive_transfer::lump(transfer, lump);
        self.number
    }

    #[inline(always)]
    fn finish(&self, out: &mut [u64]) -> GridReadAnswer {
        // SAFETY: a start has filled it.
        archive_transfer::finish(unsafe { self.transfer.assume_init_ref() }, out)
    }
}

impl Record for peer::transfer::Transfer {
    #[inline(always)]
    fn begin<T>(numbers: [usize; 3], then: impl FnOnce(&mut peer::transfer::Transfer) -> T) -> T {
        let [rows, columns, k] = numbers;
        then(&mut peer::transfer::start(rows, columns, k))
    }

    #[inline(always)]
    fn restart(&mut self, [rows, columns, k]: [usize; 3]) {
        *self = peer::transfer::start(rows, columns, k);
    }

    #[inline(always)]
    fn number(&self) -> usize {
        peer::transfer::number(self)
    }

    #[inline(always)]
    fn lump(&mut self, lump: &[u8]) -> usize {
        peer::transfer::lump(self, lump)
    }

    #[inline(always)]
    fn finish(&self, out: &mut [u64]) -> GridReadAnswer {
        peer::transfer::finish(self, out)
    }
}

/// The second program's record, and what its last start or lump answered.
pub struct PlainRecord {
    record: SecondRecord,
    number: usize,
}

impl PlainRecord {
    fn started(numbers: [usize; 3]) -> PlainRecord {
        let (record, number) = SecondRecord::start(numbers.map(|number| number as u64));
        PlainRecord {
            record,
            number: usize::from(number),
        }
    }
}

impl Record for PlainRecord {
    #[inline(always)]
    fn begin<T>(numbers: [usize; 3], then: impl FnOnce(&mut PlainRecord) -> T) -> T {
        then(&mut PlainRecord::started(numbers))
    }

    #[inline(always)]
    fn restart(&mut self, numbers: [usize; 3]) {
        *self = PlainRecord::started(numbers);
    }

    #[inline(always)]
    fn number(&self) -> usize {
        self.number
    }

    #[inline(always)]
    fn lump(&mut self, lump: &[u8]) -> usize {
        self.number = usize::from(self.record.lump(lump));
        self.number
    }

    #[inline(always)]
    fn finish(&self, out: &mut [u64]) -> GridReadAnswer {
        let answer = self.record.finish(out);
        GridReadAnswer {
            number: usize::from(answer.number),
            index: answer.index,
        }
    }
}
