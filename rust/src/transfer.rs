//! Blocks that arrive in lumps: a read whose bytes come cut anywhere.
use crate::answers::{Answer, TransferAnswer};
use crate::raw::{self, GridReadAnswer, Transfer, MAX_BLOCK_BYTES};
use crate::{counter_bytes, judged, Refusal};

const _: () = assert!(MAX_BLOCK_BYTES == block_bytes(64, 64, 7));

/// The bytes of a block as it is sent: its counters, and after them its cell words, 8 bytes each, the lowest byte first.
///
/// ```
/// assert_eq!(ernavluq::block_bytes(2, 3, 4), ernavluq::counter_bytes(2, 3, 4) + 2 * 8);
/// assert_eq!(ernavluq::MAX_BLOCK_BYTES, 560);
/// ```
pub const fn block_bytes(rows: usize, columns: usize, k: usize) -> usize {
    counter_bytes(rows, columns, k).saturating_add(rows.saturating_mul(8))
}

/// A read of a block that arrives in lumps. It starts with the block's numbers, takes its bytes in lumps of any length, and hands nothing out before it is
/// finished. Then it answers and fills the output as [`grid_read`](crate::grid_read) does with the joined bytes.
///
/// ```
/// # fn main() -> Result<(), ernavluq::Refusal> {
/// use ernavluq::{block_bytes, Transfer, SHORT_BLOCK};
///
/// // Two rows, two columns and K = 3: a byte of counters, and the cell words 1 and 3.
/// let block = [0x96, 1, 0, 0, 0, 0, 0, 0, 0, 3, 0, 0, 0, 0, 0, 0, 0];
/// let mut transfer = Transfer::start(2, 2, 3)?;
/// transfer.lump(&block[..5])?;
///
/// // The cable drops out. A finish is refused, and nothing is handed out.
/// let mut out = [9; 2];
/// assert_eq!(transfer.finish(&mut out).unwrap_err().number(), SHORT_BLOCK);
/// assert_eq!((out, transfer.missing()?, block_bytes(2, 2, 3)), ([9; 2], 12, 17));
///
/// // It is back: the bytes that are missing follow.
/// transfer.lump(&block[transfer.taken..])?;
/// transfer.finish(&mut out)?;
/// assert_eq!(out, [0; 2]);
/// # Ok(())
/// # }
/// ```
///
/// It is a plain record, laid out as in C. Each call changes it in place, and refusals 1 and 9 are noted in it. It is not `Copy`, so that no call is made on a copy
/// by mistake: a clone does not have what is noted later. Any record has an answer, even if no call made it: with numbers out of range every call but a start
/// gives [`OUT_OF_RANGE`](crate::OUT_OF_RANGE), and with more bytes taken than the block has, [`LONG_BLOCK`](crate::LONG_BLOCK). Two records are equal if all
/// their bytes are, those past `taken` included.
///
/// ```compile_fail
/// let mut transfer = ernavluq::Transfer::start(1, 1, 1).unwrap();
/// let mut feed = move |bytes: &[u8]| transfer.lump(bytes);
/// feed(&[0; 10]).unwrap_err();
/// transfer.finish(&mut [0]); // the closure has the transfer, and no second one is left here
/// ```
impl Transfer {
    /// Starts a transfer of a block with these rows and columns, 1 to 64 each, and this `k`, 1 to 7: no byte is taken yet.
    ///
    /// Refused, there is no transfer to go on with. To have one that notes the refusal, [restart](Transfer::restart) one.
    ///
    /// ```
    /// let refusal = ernavluq::Transfer::start(2, 65, 3).unwrap_err();
    /// assert_eq!(refusal.number(), ernavluq::OUT_OF_RANGE);
    /// ```
    pub fn start(rows: usize, columns: usize, k: usize) -> Result<Transfer, Refusal> {
        let mut transfer = Transfer {
            rows,
            columns,
            k,
            taken: 0,
            bytes: [0; MAX_BLOCK_BYTES],
        };
        transfer.restart(rows, columns, k)?;
        Ok(transfer)
    }

    /// Starts anew in the same place. Whatever was on its way is given up, even if the numbers are refused: then every later call is refused with
    /// [`OUT_OF_RANGE`](crate::OUT_OF_RANGE), until the next restart.
    ///
    /// ```
    /// # fn main() -> Result<(), ernavluq::Refusal> {
    /// use ernavluq::{Transfer, OUT_OF_RANGE};
    ///
    /// let mut transfer = Transfer::start(1, 1, 1)?;
    /// transfer.lump(&[0x03, 1])?;
    /// assert!(transfer.restart(1, 1, 8).is_err());
    /// assert_eq!(transfer.lump(&[]).unwrap_err().number(), OUT_OF_RANGE);
    /// assert_eq!(transfer.finish(&mut [0]).unwrap_err().number(), OUT_OF_RANGE);
    /// transfer.restart(1, 1, 1)?;
    /// assert_eq!(transfer.taken, 0);
    /// # Ok(())
    /// # }
    /// ```
    pub fn restart(&mut self, rows: usize, columns: usize, k: usize) -> Result<(), Refusal> {
        // SAFETY: any record may be lent, and any numbers passed.
        let number = unsafe { raw::ernavluq_transfer_start_r2(self, rows, columns, k) };
        judged_number(number, Answer::TransferStart)
    }

    /// Takes a lump, of no bytes too: its bytes follow those taken before. Lumps may follow a finish, and after a short one they may complete the block.
    ///
    /// A lump that would make the block longer than it is gives [`LONG_BLOCK`](crate::LONG_BLOCK). No byte of it is taken, and every later call gives the
    /// same, until a new start.
    ///
    /// ```
    /// # fn main() -> Result<(), ernavluq::Refusal> {
    /// let mut transfer = ernavluq::Transfer::start(1, 1, 1)?;
    /// transfer.lump(&[0; 9])?;
    /// let refusal = transfer.lump(&[0]).unwrap_err();
    /// assert_eq!(refusal.to_string(), "refusal 9: since the start more bytes came than the block has");
    /// assert_eq!(transfer.finish(&mut [0]).unwrap_err().number(), ernavluq::LONG_BLOCK);
    /// assert_eq!(transfer.lump(&[]), Err(refusal));
    /// # Ok(())
    /// # }
    /// ```
    pub fn lump(&mut self, bytes: &[u8]) -> Result<(), Refusal> {
        // SAFETY: the slice is lent with its own length, and any record may be lent.
        let number = unsafe { raw::ernavluq_transfer_lump_r2(self, bytes.as_ptr(), bytes.len()) };
        judged_number(number, Answer::TransferLump)
    }

    /// Says how many bytes of the block have not come yet.
    ///
    /// ```
    /// # fn main() -> Result<(), ernavluq::Refusal> {
    /// let mut transfer = ernavluq::Transfer::start(1, 1, 1)?;
    /// assert_eq!(transfer.missing(), Ok(9));
    /// transfer.lump(&[0; 7])?;
    /// assert_eq!(transfer.missing(), Ok(2));
    /// assert!(transfer.lump(&[0; 3]).is_err());
    /// assert_eq!(transfer.missing().unwrap_err().number(), ernavluq::LONG_BLOCK);
    /// # Ok(())
    /// # }
    /// ```
    pub fn missing(&self) -> Result<usize, Refusal> {
        // SAFETY: any record may be lent.
        let answer = unsafe { raw::ernavluq_transfer_missing_r2(self) };
        judged(answer, Answer::TransferMissing).map(|answer| answer.bytes)
    }

    /// Finishes the block: if all its bytes are there, `out`, one word a row, gets each cell, inverted where the smaller of its two counters is odd. The
    /// transfer stays as it was, so a finish may be repeated.
    ///
    /// The first refusal of this order is given: [`OUT_OF_RANGE`](crate::OUT_OF_RANGE); [`LONG_BLOCK`](crate::LONG_BLOCK);
    /// [`WRONG_LENGTH`](crate::WRONG_LENGTH) of `out`; [`SHORT_BLOCK`](crate::SHORT_BLOCK), whatever the bytes so far hold;
    /// [`BIT_PAST_END`](crate::BIT_PAST_END); [`MALFORMED`](crate::MALFORMED).
    ///
    /// ```
    /// # fn main() -> Result<(), ernavluq::Refusal> {
    /// // The counter of the one column is 3, which is above K.
    /// let (mut transfer, mut out) = (ernavluq::Transfer::start(1, 1, 2)?, [9]);
    /// transfer.lump(&[0x0C, 1, 0, 0, 0, 0, 0, 0])?;
    /// let refusal = transfer.finish(&mut out).unwrap_err();
    /// assert_eq!(refusal.to_string(), "refusal 8: bytes of the block are missing");
    /// transfer.lump(&[0])?;
    /// let refusal = transfer.finish(&mut out).unwrap_err();
    /// assert_eq!(refusal.to_string(), "refusal 4: counter 1 is above K");
    /// assert_eq!(out, [9]);
    /// # Ok(())
    /// # }
    /// ```
    pub fn finish(&self, out: &mut [u64]) -> Result<GridReadAnswer, Refusal> {
        // SAFETY: the slice is lent with its own length and to nobody else, and any record may be lent.
        let answer = unsafe { raw::ernavluq_transfer_finish_r2(self, out.as_mut_ptr(), out.len()) };
        judged(answer, Answer::TransferFinish)
    }
}

fn judged_number(number: usize, whole: fn(TransferAnswer) -> Answer) -> Result<(), Refusal> {
    judged(TransferAnswer { number }, whole).map(|_| ())
}
