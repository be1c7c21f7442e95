//! The four drives by name.

use std::fmt;

/// A kind of drive. It settles how many blocks an image may have and how addresses are written.
#[derive(Clone, Copy, Debug, PartialEq, Eq, Hash, PartialOrd, Ord)]
pub enum Drive {
    /// Shugart, 12 MB: 24,210 blocks.
    Shugart12,
    /// Shugart, 24 MB: 48,450 blocks.
    Shugart24,
    /// Micropolis, 35 MB: 69,552 blocks.
    Micropolis35,
    /// Single-sided floppy: 432 blocks.
    Floppy,
}

impl Drive {
    /// All four, in the order of their numbers.
    pub const ALL: [Drive; 4] =
        [Drive::Shugart12, Drive::Shugart24, Drive::Micropolis35, Drive::Floppy];

    /// The drive's number in the C interface, 0 to 3.
    pub fn number(self) -> u32 {
        self as u32
    }

    /// The drive of a number, or none from 4 up.
    pub fn from_number(number: u32) -> Option<Drive> {
        Drive::ALL.get(number as usize).copied()
    }

    /// The most blocks that an image of this drive has; LBNs are below it.
    pub fn blocks(self) -> u32 {
        [24_210, 48_450, 69_552, 432][self as usize]
    }
}

impl fmt::Display for Drive {
    fn fmt(&self, out: &mut fmt::Formatter<'_>) -> fmt::Result {
        out.write_str(match self {
            Drive::Shugart12 => "Shugart 12 MB",
            Drive::Shugart24 => "Shugart 24 MB",
            Drive::Micropolis35 => "Micropolis 35 MB",
            Drive::Floppy => "floppy, single-sided",
        })
    }
}
