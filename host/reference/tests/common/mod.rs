//! Helpers of the tests: words of an image, and answers.
#![allow(dead_code)]

pub mod directories;
pub mod double;
pub mod low_bits;
pub mod names;

use reference::*;

pub const ALL: u32 = u32::MAX;

pub fn refused(number: u32) -> Answer {
    Answer { outcome: REFUSED, number, ..Answer::default() }
}

pub fn absent() -> Answer {
    Answer { outcome: ABSENT, ..Answer::default() }
}

/// A changing call done with so many stores.
pub fn made(made: u32) -> Answer {
    Answer { made, ..Answer::default() }
}

pub fn malformed(block: u32) -> Answer {
    Answer { block, ..refused(4) }
}

/// The place of word `word` of block b; header words are 0-7, data words 8-263.
fn place(b: u32, word: usize) -> usize {
    528 * b as usize + 2 * word
}

pub fn word(image: &[u8], b: u32, word: usize) -> u16 {
    let at = place(b, word);
    u16::from_le_bytes([image[at], image[at + 1]])
}

pub fn set_word(image: &mut [u8], b: u32, word: usize, value: u16) {
    let at = place(b, word);
    image[at..at + 2].copy_from_slice(&value.to_le_bytes());
}

pub fn pair(image: &[u8], b: u32, at: usize) -> u32 {
    u32::from(word(image, b, at)) + 65536 * u32::from(word(image, b, at + 1))
}

pub fn set_pair(image: &mut [u8], b: u32, at: usize, value: u32) {
    set_word(image, b, at, value as u16);
    set_word(image, b, at + 1, (value >> 16) as u16);
}

/// The image with these words changed; a pair is two words.
pub fn with(image: &[u8], words: &[(u32, usize, u16)], pairs: &[(u32, usize, u32)]) -> Vec<u8> {
    let mut image = image.to_vec();
    for &(b, at, value) in words {
        set_word(&mut image, b, at, value);
    }
    for &(b, at, value) in pairs {
        set_pair(&mut image, b, at, value);
    }
    image
}

pub fn blocks(plan: &Plan) -> Vec<u32> {
    plan.stores.iter().map(|store| store.0).collect()
}

/// A call done with these values.
pub fn done(a: u32, b: u32) -> Answer {
    Answer { a, b, ..Answer::default() }
}

/// Refused by 11: a directory of the tenth level.
pub fn deep(block: u32) -> Answer {
    Answer { block, ..refused(11) }
}
