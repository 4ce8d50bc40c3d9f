//! The pointer cases come out as written: each line below was derived by hand from document 01.

mod lines;

use lines::{check, junk};
use second::cases_pointer;

/// A row of zero bytes but for the given places.
fn row(others: &[(usize, u8)]) -> String {
    let mut bytes = [0; 64];
    for (place, byte) in others {
        bytes[*place] = *byte;
    }
    bytes.iter().map(|byte| format!("{byte:02x}")).collect()
}

#[test]
fn pointer_cases_come_out_as_written() {
    let zero = row(&[]);
    let at_511 = row(&[(63, 0x80)]);
    let at_3_and_300 = row(&[(0, 0x08), (37, 0x10)]);
    let old = junk(64);
    let lines = [
        ("P1 read, sound cells 0", format!("0 {}", row(&[(0, 0x20)]))),
        ("P1 read, replacement 0", format!("0 {}", row(&[(0, 0x40)]))),
        ("P1 made by a write", format!("0 1 1 {zero} 0a0c00")),
        ("P1 kept by a write", format!("0 1 0 {zero} 0a0800")),
        (
            "P1 full by a write",
            format!("0 2 1 {} 0b3800", row(&[(0, 0x80)])),
        ),
        ("P1, rest of last entry 1", format!("4 {old}")),
        ("P1, last replacement 1", format!("4 {old}")),
        ("P1, spare bit 1", format!("3 {old}")),
        ("P1 write, spare bit 1", format!("3 0 0 {old} 0a0c80")),
        ("P2 read", format!("0 {}", row(&[(0, 0x08), (63, 0x40)]))),
        (
            "P2 read, replacement 1",
            format!("0 {}", row(&[(0, 0x08), (63, 0x80)])),
        ),
        ("P2 made by a write", format!("0 1 1 {at_511} ff03")),
        ("P2, full bit 0", format!("4 {old}")),
        ("P2, spare bit 1", format!("3 {old}")),
        ("P3", format!("6 0 0 {old} ff03")),
        ("P3, named cell stuck", format!("0 1 0 {at_511} ff03")),
        ("P3, cell 3 right", format!("0 1 0 {zero} ff03")),
        ("P3, data 1 at 511", format!("0 1 0 {at_511} ff07")),
        ("P4", format!("0 2 2 {at_3_and_300} 076009")),
        ("P4 read", format!("0 {zero}")),
        (
            "P4, a right cell more",
            format!("0 2 2 {at_3_and_300} 076009"),
        ),
        (
            "P4, one wrong cell",
            format!("0 1 1 {} 060800", row(&[(0, 0x08)])),
        ),
        ("P4, three wrong cells", format!("6 0 0 {old} 000000")),
        ("P5 read", format!("4 {old}")),
        ("P5 write", format!("4 0 0 {old} 00004000")),
        ("P5, unary 1", format!("0 {}", row(&[(0, 0x02)]))),
        ("P5, unary 2, pointers 0 and 0", format!("5 {old}")),
        (
            "P5, unary 2, pointers 1 and 0",
            format!("0 {}", row(&[(0, 0x04)])),
        ),
        ("P5, unary 3", format!("4 {old}")),
        ("P5, a gap entry not 0", format!("4 {old}")),
        ("P6 read", format!("5 {old}")),
        ("P6 write", format!("5 0 0 {old} 010000")),
        ("P6, pointers 0 and 1", format!("0 {}", row(&[(0, 0x04)]))),
        ("P6, pointers 1 and 1", format!("5 {old}")),
        ("P6, full bit 0", format!("0 {}", row(&[(0, 0x07)]))),
        ("P7, 63 data bytes", format!("2 0 0 {old} 000000")),
        ("P7, 64 data bytes", format!("0 0 0 {zero} 000000")),
        ("P7, 65 data bytes", format!("2 0 0 {old} 000000")),
        ("P7, 63 mask bytes", format!("2 0 0 {old} 000000")),
        ("P7, 65 value bytes", format!("2 0 0 {old} 000000")),
        ("P7, 63 cell bytes", format!("2 0 0 {} 000000", junk(63))),
        ("P7, 2 metadata bytes", format!("2 0 0 {old} 0000")),
        ("P7, 4 metadata bytes", format!("2 0 0 {old} 00000000")),
        ("P7 read, 63 cell bytes", format!("2 {old}")),
        ("P7 read, 64 cell bytes", format!("0 {zero}")),
        ("P7 read, 65 cell bytes", format!("2 {old}")),
        ("P7 read, 63 output bytes", format!("2 {}", junk(63))),
        ("P7 read, no output bytes", String::from("2 -")),
        ("P7, n = 0", format!("1 0 0 {old} 00")),
        ("P7, n = 1", format!("0 0 0 {zero} 0000")),
        ("P7, n = 10", format!("0 0 0 {zero} {}", "00".repeat(13))),
        ("P7, n = 11", format!("1 0 0 {old} {}", "00".repeat(14))),
        ("P7 read, n = 0", format!("1 {old}")),
        ("P7 read, n = 1", format!("0 {}", row(&[(1, 0x02)]))),
        ("P7 read, n = 10", format!("0 {}", row(&[(1, 0x02)]))),
        ("P7 read, n = 11", format!("1 {old}")),
        ("P7 read, n = 256 + 2", format!("1 {old}")),
        ("P7 read, n = 2^16 + 2", format!("1 {old}")),
        ("P7, n = 2^32 + 2", format!("1 0 0 {old} 000000")),
        ("P7, n = 2^64 - 1", format!("1 0 0 {old} 000000")),
    ];
    check(&cases_pointer::all(), &lines);
}

#[test]
fn entries_stay_in_their_order() {
    let zero = row(&[]);
    let at_3 = row(&[(0, 0x08)]);
    let lines = [
        ("data 1, stuck at 0", format!("0 1 1 {zero} 0704")),
        ("data 1, stuck at 1", format!("0 0 0 {at_3} 0000")),
        (
            "two entries stay in order",
            format!("0 2 0 {zero} 581a6000"),
        ),
        (
            "a third comes last",
            format!("0 3 1 {} 591ae000", row(&[(0, 0x80)])),
        ),
        (
            "two entries in falling order",
            format!("0 {}", row(&[(0, 0x10)])),
        ),
        (
            "an entry stays though its cell is right",
            format!("0 1 0 {} 0a0c00", row(&[(0, 0x20)])),
        ),
    ];
    check(&cases_pointer::kept_entries(), &lines);
}
