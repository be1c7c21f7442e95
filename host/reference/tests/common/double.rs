//! One file with a double index, laid so that the place of every block can be worked by hand.

use reference::*;

pub const DRIVE: u32 = 1;

/// By request 4: how many pointer blocks a file with so many data blocks has, and how many of -2 and -3.
pub fn pointers(length: u32) -> u32 {
    length.saturating_sub(64).div_ceil(128)
}

pub fn doubles(length: u32) -> u32 {
    u32::from(length > 4_160) + u32::from(length > 20_544)
}

pub fn in_use(length: u32) -> u32 {
    1 + length + pointers(length) + doubles(length)
}

/// A file at 2 with so many data blocks, in the partition 1..e.
pub fn one_file(length: u32, e: u32) -> Vec<u8> {
    sample::scattered(DRIVE, e + 1, 1, e, &[length], 5)
}

/// The last block of a partition that has so many blocks free beside a file of this length.
pub fn end(length: u32, free: u32) -> u32 {
    1 + in_use(length) + free
}

/// The block of this file with this relative number: from 3 on stand 0, 1, 2, ..., a pointer block
/// behind the first data block that it names, -2 behind -36 and -3 behind -164.
pub fn block(relative: i32) -> u32 {
    match relative {
        0.. => {
            let before = relative as u32;
            3 + before + pointers(before) + doubles(before)
        }
        -1 => 2,
        -2 => block(-36) + 1,
        -3 => block(-164) + 1,
        _ => block(64 + 128 * (-4 - relative)) + 1,
    }
}

pub fn pda(lbn: u32) -> u32 {
    lbn_to_pda(DRIVE, lbn).a
}

pub fn lda(lbn: u32) -> u32 {
    lbn_to_lda(DRIVE, lbn).a
}
