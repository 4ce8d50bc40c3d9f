//! The packed counters of a grid at K from 4 on, of three bits each: they straddle bytes and words.

use super::bytes::{load_three, store_three};
use super::planes::{above, from_places, planes_of, to_places, words_of, Planes, PLACES};

/// The counters of a block: the first 64 of both lists, and those after.
#[derive(Clone, Copy)]
pub struct Counters {
    first: Planes,
    rest: Planes,
}

/// The bits that the counters take.
#[inline(always)]
fn bits_of(rows: usize, columns: usize) -> usize {
    3 * (rows + columns)
}

/// The bytes that the counters take.
#[inline(always)]
pub fn bytes_of(rows: usize, columns: usize) -> usize {
    (bits_of(rows, columns) + 7) >> 3
}

/// Whether a spare bit of counters of the right length is 1.
#[inline(always)]
pub fn has_spare(rows: usize, columns: usize, packed: &[u8]) -> bool {
    let last = packed.last().copied().map_or(0, u32::from);
    // The last byte has one to eight used bits.
    last >> (((bits_of(rows, columns) + 7) & 7) + 1) != 0
}

/// The counters as planes; their spare bits are 0.
#[inline(always)]
pub fn load(packed: &[u8]) -> Counters {
    let (first, rest) = packed.split_at(packed.len().min(24));
    let rest = if rest.is_empty() {
        [0; 3]
    } else {
        planes_of(load_three(rest))
    };
    Counters {
        first: planes_of(load_three(first)),
        rest,
    }
}

/// Stores counters that are all 0.
#[inline(always)]
pub fn store_zeros(packed: &mut [u8]) {
    let (first, rest) = packed.split_at_mut(packed.len().min(24));
    store_three(first, [0; 3]);
    store_three(rest, [0; 3]);
}

/// Stores counters, given the sets of those whose low, middle and high bit is 1; each a row set and a column set. No
/// counter is above the greatest, so that planes above its bits are empty.
#[inline(always)]
pub fn store(rows: usize, columns: usize, greatest: usize, sets: [[u64; 2]; 3], packed: &mut [u8]) {
    let count = rows + columns;
    let mut first = [0; 3];
    let mut rest = [0; 3];
    for plane in 0..3 {
        if greatest >> plane != 0 {
            let [row_set, column_set] = sets[plane];
            let both = u128::from(row_set) | u128::from(column_set) << rows;
            first[plane] = to_places(count, both as u64);
            if count > 64 {
                rest[plane] = to_places(64, (both >> 64) as u64);
            }
        }
    }
    let (of_first, of_rest) = packed.split_at_mut(packed.len().min(24));
    store_three(of_first, words_of(first));
    if !of_rest.is_empty() {
        store_three(of_rest, words_of(rest));
    }
}

impl Counters {
    /// Whether one of these counters is above K.
    #[inline(always)]
    pub fn has_above(&self, k: usize) -> bool {
        above(k, self.first) | above(k, self.rest) != 0
    }

    /// The greatest of these counters.
    #[inline(always)]
    pub fn greatest(&self) -> usize {
        let mut among = [u64::MAX; 2];
        let mut greatest = 0;
        for plane in [2, 1, 0] {
            // Of those with the highest bits so far, the ones that have this bit too.
            let here = [self.first[plane] & among[0], self.rest[plane] & among[1]];
            let found = here[0] | here[1] != 0;
            among = if found { here } else { among };
            greatest |= usize::from(found) << plane;
        }
        greatest
    }

    /// The planes of the rows.
    #[inline(always)]
    pub fn of_rows(&self, rows: usize) -> Planes {
        self.first.map(|plane| plane & PLACES[rows])
    }

    /// What a row of each counter inverts: the smaller of the two counters is odd.
    #[inline(always)]
    pub fn inverted(&self, rows: usize, columns: usize) -> [u64; 8] {
        // Columns after the first 64 counters have places of rows, which are masked out; turned, column 0 is at place 0.
        let column_plane = |plane: usize| {
            (self.first[plane] & !PLACES[rows] | self.rest[plane]).rotate_right(3 * rows as u32)
        };
        let low = from_places(columns, column_plane(0));
        let [middle, high] = [1, 2].map(column_plane);
        if middle | high == 0 {
            return [0, low, low, low, low, low, low, low];
        }
        let (middle, high) = (from_places(columns, middle), from_places(columns, high));
        [
            0,
            low | middle | high,
            low & !(middle | high),
            low | high,
            low & !high,
            low | middle & high,
            low & !(middle & high),
            low,
        ]
    }
}

/// The index of the first counter above K among packed counters that have one.
#[cold]
#[inline(never)]
pub fn first_above(k: usize, packed: &[u8]) -> usize {
    let Counters { first, rest } = load(packed);
    let [first, rest] = [first, rest].map(|planes| from_places(64, above(k, planes)));
    (u128::from(first) | u128::from(rest) << 64).trailing_zeros() as usize
}

#[cfg(test)]
mod tests {
    use super::{bytes_of, first_above, load, store};
    use crate::peer::planes::{counter_at, place_of};

    /// Some counters up to the greatest, rows first.
    fn some(count: usize, greatest: usize) -> Vec<usize> {
        (0..count)
            .map(|place| (5 * place + place / 3 + place / 7) % (greatest + 1))
            .collect()
    }

    /// Packs counters, of which so many are rows.
    fn packed(rows: usize, counters: &[usize], greatest: usize) -> Vec<u8> {
        let columns = counters.len() - rows;
        let sets = [0, 1, 2].map(|plane| {
            let set = |list: &[usize]| {
                let bits = list.iter().enumerate();
                bits.fold(0, |set, (line, counter)| {
                    set | (*counter as u64 >> plane & 1) << line
                })
            };
            [set(&counters[..rows]), set(&counters[rows..])]
        });
        let mut bytes = vec![0xa5; bytes_of(rows, columns)];
        store(rows, columns, greatest, sets, &mut bytes);
        bytes
    }

    #[test]
    fn every_size_is_stored_and_loaded() {
        for (rows, columns) in (1..=64).flat_map(|rows| (1..=64).map(move |c| (rows, c))) {
            let greatest = 1 + (rows + 3 * columns) % 7;
            let counters = some(rows + columns, greatest);
            let bytes = packed(rows, &counters, greatest);
            let bits = counters.iter().enumerate();
            let expected = bits.fold([0u8; 50], |mut bytes, (place, counter)| {
                let wide = (*counter as u16) << (3 * place % 8);
                bytes[3 * place / 8] |= wide as u8;
                bytes[3 * place / 8 + 1] |= (wide >> 8) as u8;
                bytes
            });
            assert_eq!(bytes, expected[..bytes.len()], "{rows} by {columns}");
            let loaded = load(&bytes);
            let inverted = loaded.inverted(rows, columns);
            for row in 0..rows {
                let counter = counter_at(loaded.of_rows(rows), place_of(row));
                assert_eq!(counter, counters[row]);
                for (column, other) in counters[rows..].iter().enumerate() {
                    let odd = counter.min(*other) as u64 & 1;
                    assert_eq!(inverted[counter] >> column & 1, odd);
                }
            }
            let most = *counters.iter().max().unwrap();
            assert_eq!(loaded.greatest(), most);
            for k in 4..=7 {
                assert_eq!(loaded.has_above(k), most > k);
            }
        }
    }

    #[test]
    fn the_first_above_k_is_found_wherever_it_stands() {
        for k in 4..=6 {
            for place in 0..128 {
                let mut counters = [k; 128];
                counters[127] = 7;
                counters[place] = k + 1;
                assert_eq!(first_above(k, &packed(64, &counters, 7)), place);
            }
        }
    }
}
