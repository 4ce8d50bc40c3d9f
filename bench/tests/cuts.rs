//! The three agree on blocks that are cut at every place: in two lumps, with a finish at the cut, and with a new start there.

use bench::agree::compare;
use bench::calls_grid::rough_read_of;
use bench::script::sends;
use second::call::{GridRead, Transfer};
use second::make_transfer::joined;
use second::random::Random;

/// Script bytes with a name.
const NEW: u8 = 254;
const END: u8 = 255;

/// Has all three make the transfer of these bytes by these steps, into what the read's output holds; the number.
fn number(read: &GridRead, bytes: &[u8], steps: &[&[u8]]) -> usize {
    let call = Transfer {
        numbers: read.numbers,
        bytes: bytes.to_vec(),
        script: steps.concat(),
        output: read.output.clone(),
    };
    compare(&call).unwrap()
}

/// Cuts a block at a place in every way; each has to end as the ordinary read of the block, or as it is said.
fn cut(read: &GridRead, place: usize) {
    let block = joined(read);
    let whole = compare(read).unwrap();
    let [first, rest] = [sends(place), sends(block.len() - place)];
    assert_eq!(number(read, &block, &[&first, &rest]), whole);
    assert_eq!(number(read, &block, &[&first, &[END], &rest]), whole);
    assert_eq!(number(read, &block, &[&first, &[0], &rest, &[END]]), whole);
    if place < block.len() {
        assert_eq!(number(read, &block, &[&first]), 8);
    }
    // What was taken before a new start is given up, and the block is short of it.
    if place > 0 {
        assert_eq!(number(read, &block, &[&first, &[NEW], &rest]), 8);
    }
    let again = [&block[..place], &block].concat();
    let all = sends(block.len());
    assert_eq!(number(read, &again, &[&first, &[NEW], &all]), whole);
    assert_eq!(number(read, &again, &[&first, &[END, NEW], &all]), whole);
    // One byte more, in the second lump and in one of its own.
    let longer = [&block[..], &[0]].concat();
    let more = sends(block.len() + 1 - place);
    assert_eq!(number(read, &longer, &[&first, &more]), 9);
    assert_eq!(number(read, &longer, &[&first, &rest, &[1]]), 9);
    assert_eq!(number(read, &longer, &[&first, &more, &[NEW]]), 8);
}

#[test]
fn blocks_are_cut_at_every_place() {
    let random = &mut Random::new(71);
    for numbers in [
        [1, 1, 1],
        [1, 64, 1],
        [2, 3, 2],
        [3, 5, 3],
        [3, 3, 4],
        [8, 8, 1],
        [8, 8, 7],
        [5, 60, 5],
        [64, 1, 6],
        [64, 64, 1],
        [64, 64, 3],
        [64, 64, 7],
    ] {
        let mut seen = [0; 14];
        for _ in 0..4 {
            let read = rough_read_of(random, numbers);
            seen[compare(&read).unwrap()] += 1;
            for place in 0..=joined(&read).len() {
                cut(&read, place);
            }
        }
        assert!(seen[0] > 0, "{numbers:?}: {seen:?}");
    }
}

#[test]
fn steps_send_what_they_are_to_send() {
    for count in 0..=1200 {
        let steps = sends(count);
        assert!(!steps.is_empty() && steps.iter().all(|step| *step < NEW));
        assert_eq!(steps.iter().copied().map(usize::from).sum::<usize>(), count);
    }
}
