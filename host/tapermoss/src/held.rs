//! What a dangling entry holds where the address of a file should be.

use crate::directories::Directories;
use crate::volume;
use perq::Refusal;
use std::fmt;

/// What was found at the two words of its address.
#[derive(Clone, Copy, Debug, PartialEq, Eq)]
pub enum Held {
    Nil,
    NoBlock,
    NoFile(u32),
    Malformed(u32),
}

impl Held {
    pub fn of(directories: &Directories, lda: u32) -> Held {
        let Directories { image, drive, s, .. } = *directories;
        let last = volume::last(image, drive, s).unwrap_or(s);
        match perq::lda_to_lbn(drive, lda) {
            Err(_) if lda == 0 => Held::Nil,
            Ok(block) if (s..=last).contains(&block) => {
                match perq::description(image, drive, s, block) {
                    Err(Refusal::Malformed { .. }) => Held::Malformed(block),
                    _ => Held::NoFile(block),
                }
            }
            _ => Held::NoBlock,
        }
    }

    pub fn block(self) -> Option<u32> {
        match self {
            Held::Nil | Held::NoBlock => None,
            Held::NoFile(block) | Held::Malformed(block) => Some(block),
        }
    }

    /// The word for it in JSON.
    pub fn word(self) -> &'static str {
        match self {
            Held::Nil => "nil",
            Held::NoBlock => "no block of the partition",
            Held::NoFile(_) => "no file",
            Held::Malformed(_) => "malformed file block",
        }
    }
}

impl fmt::Display for Held {
    fn fmt(&self, f: &mut fmt::Formatter) -> fmt::Result {
        match self {
            Held::Nil => write!(f, "it holds nil"),
            Held::NoBlock => write!(f, "it holds no address of a block of the partition"),
            Held::NoFile(block) => write!(f, "it names block {block}, which is no file"),
            Held::Malformed(block) => write!(f, "it names block {block}, a malformed file block"),
        }
    }
}
