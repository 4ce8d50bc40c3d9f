//! Blocks that arrive in lumps, of document 02, A1. Most are G3: two rows and two columns at K = 3, 17 bytes, read as 0 0.

use bench::answers::TransferAnswer;
use bench::contestant::Contestant;
use bench::input::Input;
use second::call::Transfer;

/// Script bytes with a name.
const NEW: u8 = 254;
const END: u8 = 255;

/// The numbers of G3.
const OF_G3: [u64; 3] = [2, 2, 3];

/// What outputs hold before.
const JUNK: u64 = 0xa5a5;

/// The bytes of a block.
fn block(counters: &[u8], cells: &[u64]) -> Vec<u8> {
    let cells = cells.iter().flat_map(|word| word.to_le_bytes());
    counters.iter().copied().chain(cells).collect()
}

/// The block of G3.
fn g3() -> Vec<u8> {
    block(&[0x96], &[1, 3])
}

/// A transfer into a word of junk a row.
fn transfer(numbers: [u64; 3], bytes: &[u8], script: &[u8]) -> Transfer {
    Transfer {
        numbers,
        bytes: bytes.to_vec(),
        script: script.to_vec(),
        output: vec![JUNK; numbers[0].min(64) as usize],
    }
}

/// Has the transfer end with this number and index after these steps, and leaves this output.
fn ends<C: Contestant>(call: &Transfer, end: [usize; 2], steps: &[u8], output: &[u64]) {
    let mut after = call.clone();
    let answer = TransferAnswer {
        number: end[0],
        index: end[1],
        steps: steps.to_vec(),
    };
    assert_eq!(after.made_by::<C>(), answer, "{call:?}");
    assert_eq!(after.output, output, "{call:?}");
    after.output.clone_from(&call.output);
    assert_eq!(&after, call);
}

/// Has the transfer accepted, every step too, with this output.
fn accepts<C: Contestant>(call: &Transfer, output: &[u64]) {
    ends::<C>(call, [0, 0], &vec![0; call.script.len() + 1], output);
}

/// Has the transfer end refused after these steps, with its output as it was.
fn refuses<C: Contestant>(call: &Transfer, end: [usize; 2], steps: &[u8]) {
    ends::<C>(call, end, steps, &call.output);
}

/// Whole blocks, cut anywhere: G1, G2, G3 and G6, counters of three bits, and the longest.
pub fn accepted<C: Contestant>() {
    accepts::<C>(&transfer([2, 2, 1], &block(&[0], &[1, 2]), &[17]), &[1, 2]);
    accepts::<C>(&transfer([1, 1, 1], &block(&[0x03], &[0]), &[9]), &[1]);
    let g6 = block(&[0x5e, 0x0b], &[1, 3, 7]);
    accepts::<C>(&transfer([3, 3, 3], &g6, &[26]), &[0, 0, 0]);
    for cut in 0..=17 {
        accepts::<C>(&transfer(OF_G3, &g3(), &[cut, 17 - cut]), &[0, 0]);
        accepts::<C>(&transfer(OF_G3, &g3(), &[cut, 0, 17 - cut, 0]), &[0, 0]);
        // More is asked for than is left.
        accepts::<C>(&transfer(OF_G3, &g3(), &[cut, 253]), &[0, 0]);
    }
    accepts::<C>(&transfer(OF_G3, &g3(), &[1; 17]), &[0, 0]);
    accepts::<C>(&transfer(OF_G3, &g3(), &[1, 0].repeat(17)), &[0, 0]);
    // Row counters 2, 4, 3, 1 and column counters 1, 3, 4, 2.
    let g7 = block(&[0xe2, 0x92, 0x51], &[1, 3, 7, 15]);
    for k in 4..=7 {
        accepts::<C>(&transfer([4, 4, k], &g7, &[35]), &[0; 4]);
        accepts::<C>(&transfer([4, 4, k], &g7, &[2, 2, 31]), &[0; 4]);
    }
    // The lowest byte is first, and the counters go before the words.
    let bytes: Vec<u8> = [vec![0; 9], (1..=8).collect()].concat();
    let call = transfer([1, 64, 1], &bytes, &[10, 7]);
    accepts::<C>(&call, &[0x0807_0605_0403_0201]);
    let rows: Vec<u64> = (0..64).collect();
    let inverted: Vec<u64> = rows.iter().map(|row| !row).collect();
    for (k, counter_bytes) in [(1, 16), (3, 32), (7, 48)] {
        let bytes = block(&vec![0xff; counter_bytes], &rows);
        let last = (bytes.len() - 506) as u8;
        let call = transfer([64, 64, k], &bytes, &[253, 253, last]);
        accepts::<C>(&call, &inverted);
        let call = transfer([64, 64, k], &bytes, &vec![1; bytes.len()]);
        accepts::<C>(&call, &inverted);
    }
}

/// Finishes before the last byte, whatever the others are, and the same block completed after them.
pub fn short<C: Contestant>() {
    for sent in 0..17 {
        refuses::<C>(&transfer(OF_G3, &g3(), &[sent]), [8, 0], &[0, 0]);
        let call = transfer(OF_G3, &g3(), &[sent, END, END]);
        refuses::<C>(&call, [8, 0], &[0, 0, 8, 8]);
        let call = transfer(OF_G3, &g3(), &[sent, END, 17 - sent]);
        ends::<C>(&call, [0, 0], &[0, 0, 8, 0], &[0, 0]);
    }
    refuses::<C>(&transfer(OF_G3, &g3(), &[]), [8, 0], &[0]);
    refuses::<C>(&transfer(OF_G3, &[], &[17]), [8, 0], &[0, 0]);
    // At K = 2 row 0 is bad, and the last word reaches past column 1.
    let bad = block(&[0x57], &[1, 4]);
    refuses::<C>(&transfer([2, 2, 2], &bad, &[16]), [8, 0], &[0, 0]);
    // Every finish of a whole block is accepted, and none ends it.
    let call = transfer(OF_G3, &g3(), &[17, END, 0, END]);
    accepts::<C>(&call, &[0, 0]);
}

/// Lumps that exceed the block: none of their bytes is taken, and only a new start helps.
pub fn over<C: Contestant>() {
    let more = [g3(), vec![0]].concat();
    refuses::<C>(&transfer(OF_G3, &more, &[18]), [9, 0], &[0, 9]);
    refuses::<C>(&transfer(OF_G3, &more, &[17, 1]), [9, 0], &[0, 0, 9]);
    refuses::<C>(&transfer(OF_G3, &more, &[10, 8]), [9, 0], &[0, 0, 9]);
    // A lump of no bytes, a finish and a lump that would fit are refused alike.
    let again = [vec![7; 18], g3()].concat();
    let call = transfer(OF_G3, &again, &[18, 0, END, 17]);
    refuses::<C>(&call, [9, 0], &[0, 9, 9, 9, 9]);
    let call = transfer(OF_G3, &again, &[18, NEW, 17]);
    ends::<C>(&call, [0, 0], &[0, 9, 0, 0], &[0, 0]);
    // What was refused does not come back.
    let call = transfer(OF_G3, &more, &[18, NEW, 17]);
    refuses::<C>(&call, [8, 0], &[0, 9, 0, 0]);
    // The output of an accepted finish stays.
    let call = transfer(OF_G3, &more, &[17, END, 1]);
    ends::<C>(&call, [9, 0], &[0, 0, 0, 9], &[0, 0]);
    let all = vec![0; 561];
    let call = transfer([64, 64, 7], &all, &[253, 253, 54, 1]);
    refuses::<C>(&call, [9, 0], &[0, 0, 0, 0, 9]);
    let call = transfer([64, 64, 7], &all, &[253, 253, 55]);
    refuses::<C>(&call, [9, 0], &[0, 0, 0, 9]);
}

/// New starts: at once, on the way, after a whole block, and with another block after them.
pub fn starts<C: Contestant>() {
    // The cells of G1 with the counters of no level.
    let two = [g3(), block(&[0], &[1, 2])].concat();
    accepts::<C>(&transfer(OF_G3, &two, &[NEW, 17]), &[0, 0]);
    accepts::<C>(&transfer(OF_G3, &two, &[17, NEW, 17]), &[1, 2]);
    accepts::<C>(&transfer(OF_G3, &two, &[17, END, NEW, 17]), &[1, 2]);
    accepts::<C>(&transfer(OF_G3, &two, &[9, 8, NEW, NEW, 17]), &[1, 2]);
    // Nothing is left of the first block but its output.
    let call = transfer(OF_G3, &two, &[17, NEW]);
    refuses::<C>(&call, [8, 0], &[0, 0, 0]);
    let call = transfer(OF_G3, &two, &[17, END, NEW, 16]);
    ends::<C>(&call, [8, 0], &[0, 0, 0, 0, 0], &[0, 0]);
    let call = transfer(OF_G3, &two, &[9, NEW, 8]);
    refuses::<C>(&call, [8, 0], &[0, 0, 0, 0]);
    // A byte that was taken before the new start is no part of the block after it.
    let shifted = [&[0xff], &block(&[0], &[2, 3])[..]].concat();
    accepts::<C>(&transfer(OF_G3, &shifted, &[1, NEW, 17]), &[2, 3]);
}

/// Numbers outside their range: 1 at every step, whatever else is wrong.
pub fn numbers<C: Contestant>() {
    for numbers in [
        [0, 2, 3],
        [65, 2, 3],
        [2, 0, 3],
        [2, 65, 3],
        [2, 2, 0],
        [2, 2, 8],
        [u64::MAX, 2, 3],
        [2, 1 << 32 | 2, 3],
        [0, 0, 0],
    ] {
        let call = transfer(numbers, &g3(), &[17, END, NEW, 0, 253, END]);
        refuses::<C>(&call, [1, 0], &[1; 7]);
        let mut call = transfer(numbers, &[0xff; 40], &[40]);
        call.output = vec![JUNK; 7];
        refuses::<C>(&call, [1, 0], &[1; 2]);
    }
}

/// Outputs of another length: 2, after 1 and 9, before 8, 3 and 4; and a new start does not help.
pub fn outputs<C: Contestant>() {
    let into = |numbers, bytes: &[u8], script: &[u8], words: usize| Transfer {
        output: vec![JUNK; words],
        ..transfer(numbers, bytes, script)
    };
    let more = [g3(), vec![0]].concat();
    let bad = block(&[0x57], &[1, 4]);
    for words in [0, 1, 3, 64] {
        let call = into(OF_G3, &g3(), &[17, END, NEW, 0], words);
        refuses::<C>(&call, [2, 0], &[0, 0, 2, 0, 0]);
        refuses::<C>(&into(OF_G3, &g3(), &[16], words), [2, 0], &[0, 0]);
        refuses::<C>(&into([2, 2, 2], &bad, &[17], words), [2, 0], &[0, 0]);
        refuses::<C>(&into(OF_G3, &more, &[18], words), [9, 0], &[0, 9]);
    }
}

/// Whole blocks that the read refuses: bits past the last column and spare ones, and then counters above K by their index.
pub fn contents<C: Contestant>() {
    let refused = |numbers, counters: &[u8], cells: &[u64], end: [usize; 2]| {
        let bytes = block(counters, cells);
        let length = bytes.len() as u8;
        let number = end[0] as u8;
        refuses::<C>(&transfer(numbers, &bytes, &[length]), end, &[0, 0]);
        // A finish changes nothing, so that the next one answers the same.
        let call = transfer(numbers, &bytes, &[length - 1, 1, END, 0, END]);
        refuses::<C>(&call, end, &[0, 0, 0, number, 0, number]);
    };
    refused(OF_G3, &[0x96], &[1, 4], [3, 0]);
    refused(OF_G3, &[0x96], &[1 << 63, 3], [3, 0]);
    refused([1, 2, 1], &[0x08], &[0], [3, 0]);
    refused([1, 2, 3], &[0x40], &[0], [3, 0]);
    refused([1, 2, 4], &[0x00, 0x02], &[0], [3, 0]);
    // G10, and the same beside a bit past the last column.
    refused([2, 2, 2], &[0x57], &[1, 2], [4, 0]);
    refused([2, 2, 2], &[0x57], &[1, 4], [3, 0]);
    for (counters, index) in [(0x0c, 1), (0x30, 2), (0xc0, 3), (0xf0, 2)] {
        refused([2, 2, 2], &[counters], &[1, 2], [4, index]);
    }
    // Counters 4, 3 and 5.
    refused([1, 2, 4], &[0x5c, 0x01], &[0], [4, 2]);
}
