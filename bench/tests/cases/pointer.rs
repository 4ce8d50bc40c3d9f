//! The pointer cases of document 01.

use bench::answers::{PointerReadAnswer, PointerWriteAnswer};
use bench::contestant::Contestant;
use bench::input::Input;
use second::call::{PointerRead, PointerWrite};

use crate::blocks::refuses;

/// The answer of a pointer read that is accepted.
const READ: PointerReadAnswer = PointerReadAnswer { number: 0 };

/// A row of zeros but for the given positions.
fn row(ones: &[usize]) -> Vec<u8> {
    let mut bytes = vec![0; 64];
    for position in ones {
        bytes[position / 8] |= 1 << (position % 8);
    }
    bytes
}

/// A pointer write of data 0 with these cells stuck at 1.
fn pointer_write(n: u64, stuck: &[usize], metadata: &[u8]) -> PointerWrite {
    PointerWrite {
        n,
        data: row(&[]),
        mask: row(stuck),
        values: row(stuck),
        cells: vec![0xa5; 64],
        metadata: metadata.to_vec(),
    }
}

/// A pointer read of cells that are 1 at the given positions.
fn pointer_read(n: u64, cells: &[usize], metadata: &[u8]) -> PointerRead {
    PointerRead {
        n,
        cells: row(cells),
        metadata: metadata.to_vec(),
        output: vec![0xa5; 64],
    }
}

/// P1 to P7.
pub fn pointer_cases<C: Contestant>() {
    let mut p1 = pointer_read(2, &[], &[0x0a, 0x0c, 0x00]);
    assert_eq!(p1.made_by::<C>(), READ);
    assert_eq!(p1.output, row(&[5]));
    let mut p2 = pointer_read(1, &[3, 511], &[0xff, 0x03]);
    assert_eq!(p2.made_by::<C>(), READ);
    assert_eq!(p2.output, row(&[3]));
    refuses::<C, _>(&pointer_write(1, &[3], &[0xff, 0x03]), 6);
    let mut p4 = pointer_write(2, &[3, 300], &[0; 3]);
    let two_new = PointerWriteAnswer {
        number: 0,
        active: 2,
        new_entries: 2,
    };
    assert_eq!(p4.made_by::<C>(), two_new);
    assert_eq!(p4.metadata, [0x07, 0x60, 0x09]);
    assert_eq!(p4.cells, row(&[3, 300]));
    refuses::<C, _>(&pointer_write(3, &[], &[0x00, 0x00, 0x40, 0x00]), 4);
    refuses::<C, _>(&pointer_read(3, &[], &[0x00, 0x00, 0x40, 0x00]), 4);
    refuses::<C, _>(&pointer_write(2, &[], &[0x01, 0x00, 0x00]), 5);
    refuses::<C, _>(&pointer_read(2, &[], &[0x01, 0x00, 0x00]), 5);
    refuses::<C, _>(&pointer_write(2, &[], &[0x00, 0x00, 0x20]), 3);
    for length in [63, 65] {
        let mut p7 = pointer_write(2, &[], &[0; 3]);
        p7.data.resize(length, 0);
        refuses::<C, _>(&p7, 2);
    }
    refuses::<C, _>(&pointer_write(0, &[], &[0]), 1);
    refuses::<C, _>(&pointer_write(11, &[], &[0; 14]), 1);
}
