//! Planes of 64 counters of three bits: a bit of each, without a loop over counters.
//!
//! Counter c starts at bit 3c of the packed bytes. In a plane its bit has the place 3c mod 64: 64 counters fill three
//! words, and as 3 and 64 have no factor in common, each of them has a place of its own. So the planes of three words
//! are masks and hardly a move, and turning a plane by three places goes on by one counter.

/// A bit of each of 64 counters, at its place: the low ones, the middle ones, the high ones.
pub type Planes = [u64; 3];

/// Every third bit of a word: from bit 0, from bit 1 and from bit 2.
const THIRD: [u64; 3] = [
    0x9249_2492_4924_9249,
    0x2492_4924_9249_2492,
    0x4924_9249_2492_4924,
];

/// So many counters at the start of a word are every third bit: counter 21 starts at its last bit.
const IN_A_WORD: usize = 22;

/// The places of so many counters from the first.
pub const PLACES: [u64; 65] = {
    let mut places = [0; 65];
    let mut count = 0;
    while count < 64 {
        places[count + 1] = places[count] | 1 << (3 * count % 64);
        count += 1;
    }
    places
};

/// Moves the 22 low bits of a word to every third bit.
#[inline(always)]
fn spread(word: u64) -> u64 {
    let mut word = word & 0x003f_ffff;
    word = (word | word << 32) & 0x003f_0000_0000_ffff;
    word = (word | word << 16) & 0x003f_0000_ff00_00ff;
    word = (word | word << 8) & 0x300f_00f0_0f00_f00f;
    word = (word | word << 4) & 0x30c3_0c30_c30c_30c3;
    (word | word << 2) & THIRD[0]
}

/// Moves every third bit of a word to its 22 low bits.
#[inline(always)]
fn gather(word: u64) -> u64 {
    let mut word = word & THIRD[0];
    word = (word | word >> 2) & 0x30c3_0c30_c30c_30c3;
    word = (word | word >> 4) & 0x300f_00f0_0f00_f00f;
    word = (word | word >> 8) & 0x003f_0000_ff00_00ff;
    word = (word | word >> 16) & 0x003f_0000_0000_ffff;
    (word | word >> 32) & 0x003f_ffff
}

/// Moves the first so many bits of a set to their places.
#[inline(always)]
pub fn to_places(count: usize, set: u64) -> u64 {
    if count <= IN_A_WORD {
        return spread(set);
    }
    // Counter 22 starts at bit 2 of the second word, and counter 43 at bit 1 of the third.
    spread(set) | spread(set >> 22) << 2 | spread(set >> 43) << 1
}

/// The set whose first so many bits stand at these places.
#[inline(always)]
pub fn from_places(count: usize, plane: u64) -> u64 {
    if count <= IN_A_WORD {
        return gather(plane);
    }
    gather(plane) | gather(plane >> 2) << 22 | gather(plane >> 1) << 43
}

/// The planes of 64 packed counters.
#[inline(always)]
pub fn planes_of([first, second, third]: [u64; 3]) -> Planes {
    [
        first & THIRD[0] | second & THIRD[2] | third & THIRD[1],
        (first & THIRD[1] | second & THIRD[0] | third & THIRD[2]).rotate_right(1),
        (first & THIRD[2] | second & THIRD[1] | third & THIRD[0]).rotate_right(2),
    ]
}

/// The 64 packed counters of planes.
#[inline(always)]
pub fn words_of([low, middle, high]: Planes) -> [u64; 3] {
    let (middle, high) = (middle.rotate_left(1), high.rotate_left(2));
    [
        low & THIRD[0] | middle & THIRD[1] | high & THIRD[2],
        low & THIRD[2] | middle & THIRD[0] | high & THIRD[1],
        low & THIRD[1] | middle & THIRD[2] | high & THIRD[0],
    ]
}

/// The 64 packed counters that are 1 at these places and 0 elsewhere.
#[inline(always)]
pub fn places_to_words(places: u64) -> [u64; 3] {
    [places & THIRD[0], places & THIRD[2], places & THIRD[1]]
}

/// The place of a row's counter.
#[inline(always)]
pub fn place_of(row: usize) -> usize {
    (3 * row) & 63
}

/// The row whose counter has this place.
#[inline(always)]
pub fn row_at(place: usize) -> usize {
    // 3 times 43 is 1 more than twice 64.
    (43 * place) & 63
}

/// The counter at a place.
#[inline(always)]
pub fn counter_at([low, middle, high]: Planes, place: usize) -> usize {
    let bit = |plane: u64| (plane >> place & 1) as usize;
    bit(low) | bit(middle) << 1 | bit(high) << 2
}

/// The counters of planes that are above K, each at its place.
#[inline(always)]
pub fn above(k: usize, [low, middle, high]: Planes) -> u64 {
    high & match k {
        4 => low | middle,
        5 => middle,
        6 => low & middle,
        _ => 0,
    }
}

#[cfg(test)]
mod tests {
    use super::{above, counter_at, from_places, place_of, places_to_words, planes_of, row_at};
    use super::{to_places, words_of, Planes, PLACES};

    /// The planes of one counter among zeros.
    fn alone(place: usize, counter: u64) -> Planes {
        [0, 1, 2].map(|bit| (counter >> bit & 1) << place)
    }

    #[test]
    fn every_counter_has_its_own_place() {
        for counter in 0..64 {
            assert_eq!(row_at(place_of(counter)), counter);
            assert_eq!(PLACES[counter] >> place_of(counter) & 1, 0);
            assert_eq!(PLACES[counter + 1] >> place_of(counter) & 1, 1);
        }
        assert_eq!(PLACES[64], u64::MAX);
    }

    #[test]
    fn sets_are_moved_to_their_places_and_back() {
        for count in 1..=64 {
            for bit in 0..count {
                let place = 1 << place_of(bit);
                assert_eq!(to_places(count, 1 << bit), place);
                assert_eq!(from_places(count, place), 1 << bit);
            }
            let set = 0xfedc_ba98_7654_3210_u64 >> (64 - count);
            assert_eq!(from_places(count, to_places(count, set)), set);
        }
    }

    #[test]
    fn every_bit_of_three_words_is_in_its_plane() {
        for bit in 0..192 {
            let mut words = [0; 3];
            words[bit / 64] = 1 << (bit % 64);
            let mut planes = [0; 3];
            planes[bit % 3] = 1 << place_of(bit / 3);
            assert_eq!(planes_of(words), planes);
            assert_eq!(words_of(planes), words);
            if bit % 3 == 0 {
                assert_eq!(places_to_words(planes[0]), words);
            }
        }
    }

    #[test]
    fn counters_above_k_are_found() {
        for k in 4..=7 {
            for counter in 0..=7 {
                let planes = alone(17, counter);
                assert_eq!(counter_at(planes, 17), counter as usize);
                assert_eq!(above(k, planes) != 0, counter as usize > k);
            }
        }
    }
}
