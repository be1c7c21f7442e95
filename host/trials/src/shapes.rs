//! The five shapes of partition that check is measured on: what a block costs depends on what it is part of. A partition
//! begins at block 1 and fills its image; but for the last shape a part of it is free, in ascending order.

use crate::images::{permutation, set_pair, Place, DATA_WORD};
use reference::image::{FREE_HEAD, FREE_TAIL, NEXT, NUMBER_FREE, PREVIOUS};
use reference::sample::{blank, scattered, Rng};

/// How a partition is filled.
#[derive(Clone, Copy, Debug, PartialEq, Eq)]
pub enum Shape {
    /// One file, which in the largest partition has 32,000 blocks of data.
    One,
    /// As many blocks of data in files of 4,000, the last one of what is left.
    Long,
    /// Files of 60 blocks, which need no pointer block; a tenth is free, as in the next shape.
    Short,
    /// Files without blocks.
    Empty,
    /// No files: a free chain through all blocks in a random order.
    Free,
}

impl Shape {
    pub const ALL: [Shape; 5] = [Shape::One, Shape::Long, Shape::Short, Shape::Empty, Shape::Free];

    /// The shape in the words of a table.
    pub fn told(self) -> &'static str {
        match self {
            Shape::One => "one file",
            Shape::Long => "files of 4,000 blocks",
            Shape::Short => "files of 60 blocks",
            Shape::Empty => "empty files",
            Shape::Free => "free blocks",
        }
    }

    /// A sound partition of m blocks of this shape.
    pub fn image(self, drive: u32, m: u32) -> Vec<u8> {
        let room = m - 1 - m / 10;
        match self {
            Shape::One => files(drive, m, &[data_blocks(m)]),
            Shape::Long => files(drive, m, &split(data_blocks(m), 4_000)),
            Shape::Short => files(drive, m, &vec![60; (room / 61) as usize]),
            Shape::Empty => files(drive, m, &vec![0; room as usize]),
            Shape::Free => free_blocks(&Place::whole(drive, m + 1)),
        }
    }
}

fn files(drive: u32, m: u32, lengths: &[u32]) -> Vec<u8> {
    scattered(drive, m + 1, 1, m, lengths, 1)
}

/// How many blocks of data long files have in a partition of m blocks: 32,000 in the largest.
fn data_blocks(m: u32) -> u32 {
    (m * 63 / 64).saturating_sub(3).min(32_000)
}

/// The lengths of files that have so many blocks of data, each but the last `each`.
fn split(blocks: u32, each: u32) -> Vec<u32> {
    (0..blocks).step_by(each as usize).map(|from| each.min(blocks - from)).collect()
}

/// A partition without files whose free chain goes through all blocks in a random order.
fn free_blocks(place: &Place) -> Vec<u8> {
    let mut image = blank(place.drive, place.n, place.s, place.e);
    let order = permutation(place, &mut Rng::new(1));
    for pair in order.windows(2) {
        set_pair(&mut image, pair[0], NEXT, place.pda(pair[1]));
        set_pair(&mut image, pair[1], PREVIOUS, place.pda(pair[0]));
    }
    let (first, last) = (order[0], order[order.len() - 1]);
    set_pair(&mut image, place.s, DATA_WORD + FREE_HEAD, place.lda(first));
    set_pair(&mut image, place.s, DATA_WORD + FREE_TAIL, place.lda(last));
    set_pair(&mut image, place.s, DATA_WORD + NUMBER_FREE, order.len() as u32);
    image
}
