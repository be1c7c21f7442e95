//! Big files, those with a double index: -2, or -2 and -3. Their numbers are request 4's, and their partitions have hardly more
//! blocks than they need.

use crate::images::{shuffled, Place};
use reference::sample::{scattered, Rng};

/// Lengths at the edges of the double index: -2 comes with block 4,160 and gains its second entry with 4,288, -3 comes with
/// 20,544.
pub const LENGTHS: [u32; 13] =
    [4_158, 4_159, 4_160, 4_161, 4_162, 4_287, 4_288, 4_289, 4_290, 20_543, 20_544, 20_545, 20_546];

/// The longest file that fits: with 254 pointer blocks, -2, -3, its own block, the partition's and a free one these are
/// 32,767 blocks.
pub const LONGEST: u32 = 32_508;

/// How many pointer blocks over data a file with so many data blocks has.
pub fn pointers(length: u32) -> u32 {
    length.saturating_sub(64).div_ceil(128)
}

/// How many of -2 and -3 it has.
pub fn doubles(length: u32) -> u32 {
    u32::from(length > 4_160) + u32::from(length > 20_544)
}

/// How many blocks it has in all.
pub fn in_use(length: u32) -> u32 {
    1 + length + pointers(length) + doubles(length)
}

/// The big file of [`image`], and the short one beside it.
pub const FILE: u32 = 2;
pub const OTHER: u32 = 3;
/// How many blocks the short one has.
pub const SHORT: u32 = 3;
/// What the data of [`image`] are made from.
pub const SEED: u64 = 8;

/// A partition for a file of so many blocks and a short one, with so many blocks free.
pub fn place(drive: u32, length: u32, free: u32) -> Place {
    Place::whole(drive, 2 + in_use(length) + in_use(SHORT) + free)
}

/// A sound partition with file 2 of so many blocks, and file 3 of three.
pub fn image(place: &Place, length: u32) -> Vec<u8> {
    scattered(place.drive, place.n, place.s, place.e, &[length, SHORT], SEED)
}

/// A sound partition with the longest file alone, one block shorter or as long as it can be.
pub fn longest(drive: u32, length: u32) -> (Place, Vec<u8>) {
    let place = Place::whole(drive, 32_768);
    (place, scattered(drive, place.n, place.s, place.e, &[length], SEED))
}

/// A sound partition with a big file and a short one, its blocks in a random order, and noise wherever no rule looks. One in
/// eight has -3.
pub fn some(rng: &mut Rng) -> (Place, Vec<u8>) {
    let length = match rng.below(8) {
        0 => 20_530 + rng.below(160),
        _ => 4_150 + rng.below(300),
    };
    let place = place(rng.below(3), length, 1 + rng.below(12));
    let image = shuffled(&place, &[length, SHORT], rng);
    (place, image)
}

/// Whether it is the turn of a big file: one image in 200 has one, since a call on it takes as long as on a hundred others.
pub fn is_due(rng: &mut Rng) -> bool {
    rng.below(200) == 0
}
