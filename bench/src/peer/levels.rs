//! The levels of a grid plan as sets of bits; of the rows only those that hold a stuck cell are visited.

/// The lent words of a plan or a store.
#[derive(Clone, Copy)]
pub struct Block<'a> {
    pub data: &'a [u64],
    pub mask: &'a [u64],
    pub values: &'a [u64],
}

/// How many cells are stuck, and how many of them at the wrong bit.
#[derive(Default)]
pub struct Stuck {
    pub all: usize,
    pub wrong: usize,
}

impl Stuck {
    /// Counts a row whose stuck cells and wrong cells are these: side by side, so that one vector counts both.
    #[inline(always)]
    pub fn add(&mut self, mask: u64, wrong: u64) {
        self.all += mask.count_ones() as usize;
        self.wrong += wrong.count_ones() as usize;
    }
}

/// What up to so many levels took, and how many stuck cells there are.
pub struct Levels<const MOST: usize> {
    /// The set of rows and the set of columns of each level, empty past the last.
    pub sets: [[u64; 2]; MOST],
    pub stuck: Stuck,
}

impl<const MOST: usize> Levels<MOST> {
    /// How many levels took anything.
    #[inline(always)]
    pub fn count(&self) -> usize {
        self.sets.iter().map(|set| usize::from(set[1] != 0)).sum()
    }
}

/// The set of the rows whose word is not 0.
#[inline(always)]
pub fn rows_with_any(words: &[u64]) -> u64 {
    let (eights, rest) = words.as_chunks::<8>();
    let mut set = rest
        .iter()
        .rev()
        .fold(0, |set, word| set << 1 | u64::from(*word != 0));
    for eight in eights.iter().rev() {
        // Within eight rows each bit has its own place, so that none waits for another.
        let bits = eight.iter().enumerate().fold(0, |bits, (place, word)| {
            bits | u64::from(*word != 0) << place
        });
        set = set << 8 | bits;
    }
    set
}

/// The levels of a block, or nothing if a wrong cell is left after level K, which is not above the most.
#[inline(always)]
pub fn levels_of<const MOST: usize>(k: usize, block: Block) -> Option<Levels<MOST>> {
    let Block { data, mask, values } = block;
    let mut stuck = Stuck::default();
    let mut taken = [0; 2];
    let mut rest = rows_with_any(mask);
    while rest != 0 {
        let row = rest.trailing_zeros() as usize;
        let wrong = (data[row] ^ values[row]) & mask[row];
        stuck.add(mask[row], wrong);
        taken[0] |= u64::from(wrong != 0) << row;
        taken[1] |= wrong;
        rest &= rest - 1;
    }
    let mut sets = [[0; 2]; MOST];
    let mut turned = 0;
    for set in sets.iter_mut().take(k) {
        if taken[1] == 0 {
            break;
        }
        *set = taken;
        turned = !turned;
        taken = [0; 2];
        let mut rest = set[0];
        while rest != 0 {
            let row = rest.trailing_zeros() as usize;
            let wrong = (data[row] ^ values[row] ^ turned) & mask[row] & set[1];
            taken[0] |= u64::from(wrong != 0) << row;
            taken[1] |= wrong;
            rest &= rest - 1;
        }
    }
    if taken[1] != 0 {
        return None;
    }
    Some(Levels { sets, stuck })
}
