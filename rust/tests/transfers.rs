//! Blocks that arrive in lumps, through the wrapper: both sides of each edge.
use ernavluq::*;
use std::mem::{offset_of, size_of};

/// A block as it is sent, and how the ordinary read of it ends.
struct Sent {
    rows: usize,
    columns: usize,
    k: usize,
    bytes: Vec<u8>,
    read: Result<(), (usize, Option<usize>)>,
    shown: Vec<u64>,
}

/// An output holds this before a finish is accepted.
const OLD: u64 = 0xA5A5;

fn sent(columns: usize, k: usize, counters: &[u8], cells: &[u64]) -> Sent {
    let rows = cells.len();
    let mut shown = vec![OLD; rows];
    let read = grid_read(rows, columns, k, cells, counters, &mut shown);
    let mut bytes = counters.to_vec();
    bytes.extend(cells.iter().flat_map(|word| word.to_le_bytes()));
    assert_eq!(bytes.len(), block_bytes(rows, columns, k));
    let read = ended(read);
    Sent {
        rows,
        columns,
        k,
        bytes,
        read,
        shown,
    }
}

fn ended(answer: Result<GridReadAnswer, Refusal>) -> Result<(), (usize, Option<usize>)> {
    match answer {
        Ok(answer) => {
            assert_eq!((answer.number, answer.index), (0, 0));
            Ok(())
        }
        Err(refusal) => Err((refusal.number(), refusal.bad_counter())),
    }
}

/// Two rows, two columns, K = 3, which all read as 0: 17 bytes.
fn g3() -> Sent {
    sent(2, 3, &[0x96], &[1, 3])
}

fn longest() -> Sent {
    let cells: Vec<u64> = (1..=64u64)
        .map(|i| i.wrapping_mul(0x9E37_79B9_7F4A_7C15))
        .collect();
    let counters: Vec<u8> = (0..48u8).map(|i| i.wrapping_mul(89) ^ 0x5A).collect();
    sent(64, 7, &counters, &cells)
}

impl Sent {
    fn start(&self) -> Transfer {
        Transfer::start(self.rows, self.columns, self.k).unwrap()
    }

    /// All bytes are there: a finish ends as the ordinary read does, as often as it is made.
    fn ends(&self, transfer: &Transfer) {
        for _ in 0..2 {
            let (mut out, before) = (vec![OLD; self.rows], transfer.clone());
            assert_eq!(ended(transfer.finish(&mut out)), self.read);
            assert_eq!((out, transfer), (self.shown.clone(), &before));
            assert_eq!(transfer.missing(), Ok(0));
        }
    }

    /// Cut in two at every place, and byte by byte. Before the last byte a finish is short, and one with another output has the wrong length.
    fn comes(&self) {
        let mut drip = self.start();
        for (cut, byte) in self.bytes.iter().enumerate() {
            let mut transfer = self.start();
            transfer.lump(&self.bytes[..cut]).unwrap();
            assert_eq!(transfer, drip);
            refuses(&transfer, self.rows, SHORT_BLOCK);
            refuses(&transfer, self.rows - 1, WRONG_LENGTH);
            refuses(&transfer, self.rows + 1, WRONG_LENGTH);
            transfer.lump(&[]).unwrap();
            assert_eq!((&transfer, transfer.taken), (&drip, cut));
            assert_eq!(transfer.missing(), Ok(self.bytes.len() - cut));
            transfer.lump(&self.bytes[cut..]).unwrap();
            self.ends(&transfer);
            drip.lump(&[*byte]).unwrap();
        }
        self.ends(&drip);
        drip.lump(&[]).unwrap();
        refuses(&drip, self.rows + 1, WRONG_LENGTH);
        self.ends(&drip);
    }

    /// One byte too many, or 65,536, after any number of bytes: nothing of the lump is taken, and all is refused until a new start.
    fn overflows(&self) {
        let cuts = 0..=self.bytes.len();
        for (cut, more) in cuts.flat_map(|cut| [(cut, 1), (cut, 65_536)]) {
            let mut transfer = self.start();
            transfer.lump(&self.bytes[..cut]).unwrap();
            let before = transfer.clone();
            let mut rest = self.bytes[cut..].to_vec();
            rest.resize(rest.len() + more, 0xFF);
            assert_eq!(transfer.lump(&rest).unwrap_err().number(), LONG_BLOCK);
            let taken = MAX_BLOCK_BYTES + 1;
            assert_eq!(transfer, Transfer { taken, ..before });
            stays(&mut transfer, LONG_BLOCK);
            transfer.restart(self.rows, self.columns, self.k).unwrap();
            assert_eq!(transfer, self.start());
            transfer.lump(&self.bytes).unwrap();
            self.ends(&transfer);
        }
    }
}

/// A finish is refused with this number, and names no counter. The output stays.
fn refuses(transfer: &Transfer, words: usize, number: usize) {
    let mut out = vec![OLD; words];
    assert_eq!(ended(transfer.finish(&mut out)), Err((number, None)));
    assert_eq!(out, vec![OLD; words]);
}

/// Every call but a start is refused with this number, and the record stays.
fn stays(transfer: &mut Transfer, number: usize) {
    let before = transfer.clone();
    for length in [0, 1, 8, 17, 560, 561, 65_536 + 8] {
        let refusal = transfer.lump(&vec![0; length]).unwrap_err();
        let answer = Answer::TransferLump(TransferAnswer { number });
        assert_eq!((refusal, &*transfer), (Refusal { answer }, &before));
    }
    let answer = Answer::TransferMissing(TransferMissingAnswer { number, bytes: 0 });
    assert_eq!(transfer.missing(), Err(Refusal { answer }));
    for words in [0, 1, 2, 3, 64, 65] {
        refuses(transfer, words, number);
    }
}

#[test]
fn blocks_come_cut_anywhere() {
    assert_eq!((g3().read, g3().shown), (Ok(()), vec![0, 0]));
    let cell = sent(1, 1, &[0x03], &[1]);
    assert_eq!((cell.read, cell.shown[0], cell.bytes.len()), (Ok(()), 0, 9));
    assert_eq!((longest().read, longest().bytes.len()), (Ok(()), 560));
    for block in [
        g3(),
        cell,
        longest(),
        sent(3, 1, &[0x0D], &[5, 2]),
        sent(2, 1, &[0x15], &[1, 2, 3]),
        sent(64, 1, &[0; 16], &[u64::MAX; 64]),
        sent(64, 3, &[0xFF; 32], &[1 << 63; 64]),
    ] {
        assert_eq!(block.read, Ok(()));
        block.comes();
        block.overflows();
    }
}

#[test]
fn a_bad_block_is_judged_when_it_is_whole() {
    for (columns, k, counters, cells, number, index) in [
        (2, 1, &[0x10][..], [0, 0], BIT_PAST_END, None),
        (2, 3, &[0x96], [1, 4], BIT_PAST_END, None),
        (2, 3, &[0x96], [1, 1 << 63], BIT_PAST_END, None),
        (3, 2, &[0x0C, 0x04], [5, 2], BIT_PAST_END, None),
        (2, 2, &[0x57], [1, 2], MALFORMED, Some(0)),
        (3, 2, &[0x30, 0x03], [5, 2], MALFORMED, Some(2)),
        (3, 4, &[0x28, 0x0E], [5, 2], MALFORMED, Some(1)),
    ] {
        let block = sent(columns, k, counters, &cells);
        assert_eq!(block.read, Err((number, index)));
        block.comes();
        block.overflows();
    }
}

#[test]
fn numbers_out_of_range_go_first() {
    let far = usize::MAX;
    for (rows, columns, k) in [
        (0, 1, 1),
        (65, 1, 1),
        (far, 1, 1),
        (1, 0, 1),
        (1, 65, 1),
        (1, far, 1),
        (2, 2, 0),
        (2, 2, 8),
        (2, 2, far),
        (far, far, far),
        ((1 << 32) + 2, 2, 3),
    ] {
        let answer = Answer::TransferStart(TransferAnswer {
            number: OUT_OF_RANGE,
        });
        let refused = Refusal { answer };
        assert_eq!(Transfer::start(rows, columns, k), Err(refused));

        // A restart that is refused gives up what was on its way, and notes the refusal.
        let mut transfer = g3().start();
        transfer.lump(&g3().bytes).unwrap();
        assert_eq!(transfer.restart(rows, columns, k), Err(refused));
        let (taken, bytes) = (0, [0; MAX_BLOCK_BYTES]);
        let record = Transfer {
            rows,
            columns,
            k,
            taken,
            bytes,
        };
        assert_eq!(transfer, record);
        stays(&mut transfer, OUT_OF_RANGE);

        // It goes before too many bytes, too.
        transfer.taken = far;
        stays(&mut transfer, OUT_OF_RANGE);
        transfer.restart(2, 2, 3).unwrap();
        transfer.lump(&g3().bytes).unwrap();
        g3().ends(&transfer);
    }
    for (rows, columns, k) in [(1, 1, 1), (64, 1, 1), (1, 64, 1), (64, 64, 7)] {
        let transfer = Transfer::start(rows, columns, k).unwrap();
        refuses(&transfer, rows, SHORT_BLOCK);
        refuses(&transfer, 0, WRONG_LENGTH);
    }
}

#[test]
fn a_byte_more_after_an_accepted_finish() {
    let (mut transfer, mut out) = (g3().start(), [OLD; 2]);
    transfer.lump(&g3().bytes).unwrap();
    transfer.finish(&mut out).unwrap();
    assert_eq!(transfer.lump(&[0]).unwrap_err().number(), LONG_BLOCK);
    assert_eq!(transfer.finish(&mut out).unwrap_err().number(), LONG_BLOCK);
    assert_eq!(out, [0; 2]);
    stays(&mut transfer, LONG_BLOCK);
}

#[test]
fn records_that_no_call_made() {
    let whole = g3().bytes;
    for taken in [18, 559, 560, 561, 65_536 + 9, usize::MAX - 7, usize::MAX] {
        let mut transfer = g3().start();
        (transfer.taken, transfer.bytes) = (taken, [0xA5; 560]);
        stays(&mut transfer, LONG_BLOCK);
    }
    // The bytes past those taken are not looked at, and stay.
    let mut transfer = g3().start();
    transfer.bytes = [0xA5; 560];
    refuses(&transfer, 2, SHORT_BLOCK);
    transfer.lump(&whole[..9]).unwrap();
    assert_eq!(transfer.bytes[..9], whole[..9]);
    assert_eq!(transfer.bytes[9..], [0xA5; 551]);
    let mut copy = transfer.clone();
    assert!(copy.lump(&whole).is_err());
    transfer.lump(&whole[9..]).unwrap();
    g3().ends(&transfer);
    // Filled in by hand, it reads as well.
    let mut transfer = longest().start();
    (transfer.taken, transfer.bytes) = (560, longest().bytes.try_into().unwrap());
    longest().ends(&transfer);
    transfer.taken = 561;
    stays(&mut transfer, LONG_BLOCK);
}

#[test]
fn the_layout() {
    assert_eq!((size_of::<Transfer>(), MAX_BLOCK_BYTES), (592, 560));
    assert_eq!(offset_of!(Transfer, rows), 0);
    assert_eq!(offset_of!(Transfer, columns), 8);
    assert_eq!(offset_of!(Transfer, k), 16);
    assert_eq!(offset_of!(Transfer, taken), 24);
    assert_eq!(offset_of!(Transfer, bytes), 32);
    assert_eq!((block_bytes(1, 1, 1), block_bytes(2, 3, 4)), (9, 18));
    assert_eq!((block_bytes(64, 64, 1), block_bytes(64, 64, 3)), (528, 544));
    assert_eq!(block_bytes(usize::MAX, 1, 1), usize::MAX);
}
