//! The index of a file: how many blocks it needs, and which they are. It has three levels, and one rule holds on all of
//! them: the file's own block names the first blocks of a level, and each block of the level above names 128 of the rest.

use crate::fields::{self, DIRECT, DOUBLE, INDIRECT, LAST_BLOCK};
use perq::Drive;

/// The last block that a file can have.
pub const LAST: u32 = 32_766;

/// How many blocks a pointer block names.
const ENTRIES: usize = 128;

/// A level: where its entries stand in the file's own block, and how many there are.
struct Level {
    word: usize,
    entries: usize,
}

/// Data, pointer blocks over data, and pointer blocks over these, -2 and -3.
const LEVELS: [Level; 3] = [
    Level { word: DIRECT, entries: 64 },
    Level { word: INDIRECT, entries: 32 },
    Level { word: DOUBLE, entries: 2 },
];

impl Level {
    /// How many blocks of the level above name those of this one that the file's own block does not.
    fn over(&self, count: usize) -> usize {
        count.saturating_sub(self.entries).div_ceil(ENTRIES)
    }
}

/// How many blocks of each level a file of so many blocks of data has.
fn counts(length: u32) -> [usize; 3] {
    let mut next = length as usize;
    LEVELS.map(|level| {
        let count = next;
        next = level.over(count);
        count
    })
}

/// How many blocks a file of so many blocks of data needs, without its own one: the data and the pointer blocks.
pub fn needed(length: u32) -> u32 {
    counts(length).iter().sum::<usize>() as u32
}

/// How many blocks of data a file has: L + 1.
pub fn length(image: &[u8], f: u32) -> u32 {
    (fields::word(image, f, LAST_BLOCK) as i16 + 1) as u32
}

/// The blocks that a file's index names.
pub struct Index {
    /// Those over pointer blocks among them.
    pub pointers: Vec<u32>,
    pub data: Vec<u32>,
}

impl Index {
    /// That of a file which the library has found to be well formed: every entry that it needs is an address.
    pub fn of(image: &[u8], drive: Drive, f: u32) -> Index {
        let mut pointers = Vec::new();
        let mut blocks = Vec::new();
        for (level, count) in LEVELS.iter().zip(counts(length(image, f))).rev() {
            pointers.extend(&blocks);
            blocks = named(image, drive, f, level, count, &blocks);
        }
        Index { pointers, data: blocks }
    }
}

/// The first so many blocks of a level, given those of the level above.
fn named(
    image: &[u8],
    drive: Drive,
    f: u32,
    level: &Level,
    count: usize,
    above: &[u32],
) -> Vec<u32> {
    let own = (0..level.entries).map(|at| (f, level.word + 2 * at));
    let others = above.iter().flat_map(|&block| (0..ENTRIES).map(move |at| (block, 2 * at)));
    let places = own.chain(others).take(count);
    places
        .filter_map(|(block, word)| perq::lda_to_lbn(drive, fields::pair(image, block, word)).ok())
        .collect()
}
