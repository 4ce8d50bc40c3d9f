//! The calls of the cases P1 to P7 of document 01, both sides of each edge.

use crate::bits::set_bit_of_bytes;
use crate::call::{Call, PointerRead, PointerWrite};
use crate::pointer::ROW_BYTES;

/// What old cells and outputs hold before a call.
const JUNK: u8 = 0xa5;

/// A case: what it shows, and its call.
pub type Case = (String, Call);

/// A row of zeros but for the given positions.
fn row(ones: &[usize]) -> Vec<u8> {
    let mut bytes = vec![0; ROW_BYTES];
    for position in ones {
        set_bit_of_bytes(&mut bytes, *position, true);
    }
    bytes
}

/// A write of the data with the given cells stuck at 0 and at 1, over junk.
fn write(
    n: u64,
    data: &[usize],
    stuck_at_0: &[usize],
    stuck_at_1: &[usize],
    metadata: &[u8],
) -> PointerWrite {
    PointerWrite {
        n,
        data: row(data),
        mask: row(&[stuck_at_0, stuck_at_1].concat()),
        values: row(stuck_at_1),
        cells: vec![JUNK; ROW_BYTES],
        metadata: metadata.to_vec(),
    }
}

/// A write as a case.
fn written(
    name: &str,
    n: u64,
    data: &[usize],
    stuck_at_0: &[usize],
    stuck_at_1: &[usize],
    metadata: &[u8],
) -> Case {
    let call = write(n, data, stuck_at_0, stuck_at_1, metadata);
    (String::from(name), Call::PointerWrite(call))
}

/// A read as a case, of cells that are 1 at the given positions, into junk.
fn read(name: &str, n: u64, cells: &[usize], metadata: &[u8]) -> Case {
    let call = PointerRead {
        n,
        cells: row(cells),
        metadata: metadata.to_vec(),
        output: vec![JUNK; ROW_BYTES],
    };
    (String::from(name), Call::PointerRead(call))
}

/// A fresh write for n = 2 whose five buffers have the given lengths.
fn write_lengths(name: &str, lengths: [usize; 5]) -> Case {
    let mut call = write(2, &[], &[], &[], &[0, 0, 0]);
    call.data.resize(lengths[0], 0);
    call.mask.resize(lengths[1], 0);
    call.values.resize(lengths[2], 0);
    call.cells.resize(lengths[3], JUNK);
    call.metadata.resize(lengths[4], 0);
    (String::from(name), Call::PointerWrite(call))
}

/// A fresh read for n = 2 whose three buffers have the given lengths.
fn read_lengths(name: &str, lengths: [usize; 3]) -> Case {
    let call = PointerRead {
        n: 2,
        cells: vec![0; lengths[0]],
        metadata: vec![0; lengths[1]],
        output: vec![JUNK; lengths[2]],
    };
    (String::from(name), Call::PointerRead(call))
}

/// P1 to P3: one active entry of two, a full row of one entry, and no entry left.
fn one_to_three() -> Vec<Case> {
    vec![
        read("P1 read, sound cells 0", 2, &[], &[0x0a, 0x0c, 0x00]),
        read("P1 read, replacement 0", 2, &[5, 6], &[0x0a, 0x08, 0x00]),
        written("P1 made by a write", 2, &[5], &[5], &[], &[0, 0, 0]),
        written("P1 kept by a write", 2, &[], &[5], &[], &[0x0a, 0x0c, 0x00]),
        written("P1 full by a write", 2, &[], &[], &[7], &[0x0a, 0x0c, 0x00]),
        read("P1, rest of last entry 1", 2, &[], &[0x0a, 0x1c, 0x00]),
        read("P1, last replacement 1", 2, &[], &[0x0a, 0x0c, 0x10]),
        read("P1, spare bit 1", 2, &[], &[0x0a, 0x0c, 0x20]),
        written(
            "P1 write, spare bit 1",
            2,
            &[],
            &[],
            &[],
            &[0x0a, 0x0c, 0x80],
        ),
        read("P2 read", 1, &[3, 510, 511], &[0xff, 0x03]),
        read("P2 read, replacement 1", 1, &[3], &[0xff, 0x07]),
        written("P2 made by a write", 1, &[], &[], &[511], &[0, 0]),
        read("P2, full bit 0", 1, &[], &[0xfe, 0x03]),
        read("P2, spare bit 1", 1, &[], &[0xff, 0x0b]),
        written("P3", 1, &[], &[], &[3], &[0xff, 0x03]),
        written("P3, named cell stuck", 1, &[], &[], &[511], &[0xff, 0x03]),
        written("P3, cell 3 right", 1, &[], &[3], &[], &[0xff, 0x03]),
        written("P3, data 1 at 511", 1, &[511], &[], &[], &[0xff, 0x03]),
    ]
}

/// P4 to P6: entries in rising order, broken unary, and equal pointers.
fn four_to_six() -> Vec<Case> {
    vec![
        written("P4", 2, &[], &[], &[3, 300], &[0, 0, 0]),
        read("P4 read", 2, &[3, 300], &[0x07, 0x60, 0x09]),
        written(
            "P4, a right cell more",
            2,
            &[],
            &[301],
            &[3, 300],
            &[0, 0, 0],
        ),
        written("P4, one wrong cell", 2, &[], &[], &[3], &[0, 0, 0]),
        written(
            "P4, three wrong cells",
            2,
            &[],
            &[],
            &[3, 300, 301],
            &[0, 0, 0],
        ),
        read("P5 read", 3, &[], &[0x00, 0x00, 0x40, 0x00]),
        written("P5 write", 3, &[], &[], &[], &[0x00, 0x00, 0x40, 0x00]),
        read("P5, unary 1", 3, &[0, 1], &[0x00, 0x00, 0x20, 0x00]),
        read(
            "P5, unary 2, pointers 0 and 0",
            3,
            &[],
            &[0x00, 0x00, 0x60, 0x00],
        ),
        read(
            "P5, unary 2, pointers 1 and 0",
            3,
            &[0, 1, 2],
            &[0x02, 0x00, 0x60, 0x00],
        ),
        read("P5, unary 3", 3, &[], &[0x02, 0x00, 0xe0, 0x00]),
        read("P5, a gap entry not 0", 3, &[], &[0x00, 0x08, 0x20, 0x00]),
        read("P6 read", 2, &[], &[0x01, 0x00, 0x00]),
        written("P6 write", 2, &[], &[], &[], &[0x01, 0x00, 0x00]),
        read("P6, pointers 0 and 1", 2, &[0, 1, 2], &[0x01, 0x08, 0x00]),
        read("P6, pointers 1 and 1", 2, &[], &[0x03, 0x08, 0x00]),
        read("P6, full bit 0", 2, &[0, 1, 2], &[0x00, 0x00, 0x00]),
    ]
}

/// P7: lengths and n, at and beside their limits.
fn seven() -> Vec<Case> {
    vec![
        write_lengths("P7, 63 data bytes", [63, 64, 64, 64, 3]),
        write_lengths("P7, 64 data bytes", [64, 64, 64, 64, 3]),
        write_lengths("P7, 65 data bytes", [65, 64, 64, 64, 3]),
        write_lengths("P7, 63 mask bytes", [64, 63, 64, 64, 3]),
        write_lengths("P7, 65 value bytes", [64, 64, 65, 64, 3]),
        write_lengths("P7, 63 cell bytes", [64, 64, 64, 63, 3]),
        write_lengths("P7, 2 metadata bytes", [64, 64, 64, 64, 2]),
        write_lengths("P7, 4 metadata bytes", [64, 64, 64, 64, 4]),
        read_lengths("P7 read, 63 cell bytes", [63, 3, 64]),
        read_lengths("P7 read, 64 cell bytes", [64, 3, 64]),
        read_lengths("P7 read, 65 cell bytes", [65, 3, 64]),
        read_lengths("P7 read, 63 output bytes", [64, 3, 63]),
        read_lengths("P7 read, no output bytes", [64, 3, 0]),
        written("P7, n = 0", 0, &[], &[], &[], &[0]),
        written("P7, n = 1", 1, &[], &[], &[], &[0; 2]),
        written("P7, n = 10", 10, &[], &[], &[], &[0; 13]),
        written("P7, n = 11", 11, &[], &[], &[], &[0; 14]),
        read("P7 read, n = 0", 0, &[9], &[0]),
        read("P7 read, n = 1", 1, &[9], &[0; 2]),
        read("P7 read, n = 10", 10, &[9], &[0; 13]),
        read("P7 read, n = 11", 11, &[9], &[0; 14]),
        read("P7 read, n = 256 + 2", 258, &[9], &[0; 3]),
        read("P7 read, n = 2^16 + 2", 65538, &[9], &[0; 3]),
        written("P7, n = 2^32 + 2", (1 << 32) + 2, &[], &[], &[], &[0; 3]),
        written("P7, n = 2^64 - 1", u64::MAX, &[], &[], &[], &[0; 3]),
    ]
}

/// Data 1 at stuck cells, and rows that have active entries in falling order.
pub fn kept_entries() -> Vec<Case> {
    let falling = [0x58, 0x1a, 0x60, 0x00]; // entries for 300 and 3, with bit 0 each
    vec![
        written("data 1, stuck at 0", 1, &[3], &[3], &[], &[0, 0]),
        written("data 1, stuck at 1", 1, &[3], &[], &[3], &[0, 0]),
        written("two entries stay in order", 3, &[], &[], &[], &falling),
        written("a third comes last", 3, &[], &[], &[7], &falling),
        read("two entries in falling order", 3, &[3, 4, 300], &falling),
        written(
            "an entry stays though its cell is right",
            2,
            &[5],
            &[],
            &[5],
            &[0x0a, 0x08, 0x00],
        ),
    ]
}

/// All the pointer cases, in document 01's order.
pub fn all() -> Vec<Case> {
    [one_to_three(), four_to_six(), seven()].concat()
}
