//! The index: where the address of each block of a file stands. One rule holds on all its levels.

/// The last relative block a file can have.
pub const LAST_RELATIVE: u32 = 32_766;
/// The data words of a FIB at which its entries for the levels begin.
pub const DIRECT: usize = 52;
pub const INDIRECT: usize = 180;
pub const DOUBLE: usize = 244;
/// Entries of a block that names others.
pub const ENTRIES: u32 = 128;
/// The relative number of a FIB.
pub const FIB: i32 = -1;

/// A level of the index. Its blocks are counted from 0 on: the FIB names the first of them, and each
/// block of the level above names 128 of the rest.
#[derive(Clone, Copy, Debug, PartialEq, Eq)]
pub enum Level {
    /// Data blocks: 0, 1, 2, ...
    Data,
    /// Pointer blocks over data: -4, -5, -6, ...
    Pointer,
    /// The double index, pointer blocks over pointer blocks: -2 and -3.
    Double,
}

use Level::*;

impl Level {
    /// The levels in the order in which an append takes free blocks for them.
    pub const ALL: [Level; 3] = [Data, Pointer, Double];

    /// The data word of the FIB's entry `at` for the level.
    pub fn fib_word(self, at: u32) -> usize {
        let first = match self {
            Data => DIRECT,
            Pointer => INDIRECT,
            Double => DOUBLE,
        };
        first + entry_word(at)
    }

    /// How many entries the FIB has for the level.
    pub fn in_fib(self) -> u32 {
        match self {
            Data => 64,
            Pointer => 32,
            Double => 2,
        }
    }

    /// The relative number of the level's block `at`.
    pub fn relative(self, at: u32) -> i32 {
        match self {
            Data => at as i32,
            Pointer => -4 - at as i32,
            Double => -2 - at as i32,
        }
    }

    /// The level of the block with this relative number, which is not the FIB's, and its count there.
    pub fn of(relative: i32) -> (Level, u32) {
        match relative {
            0.. => (Data, relative as u32),
            -3..=-2 => (Double, (-2 - relative) as u32),
            _ => (Pointer, (-4 - relative) as u32),
        }
    }

    /// The level whose blocks name those of this one that the FIB does not; it names all of the last.
    fn above(self) -> Level {
        match self {
            Data => Pointer,
            Pointer | Double => Double,
        }
    }

    fn below(self) -> Option<Level> {
        match self {
            Data => None,
            Pointer => Some(Data),
            Double => Some(Pointer),
        }
    }

    /// How many blocks of the level a file with so many data blocks has.
    pub fn count(self, length: u32) -> u32 {
        self.below().map_or(length, |below| below.beyond(length).div_ceil(ENTRIES))
    }

    /// How many of these the FIB does not name.
    fn beyond(self, length: u32) -> u32 {
        self.count(length).saturating_sub(self.in_fib())
    }

    /// Of the blocks that name those of this level, the last one's relative number and how many of its
    /// entries are used; none if the FIB names them all.
    pub fn last_holder(self, length: u32) -> Option<(i32, u32)> {
        let last = self.beyond(length).checked_sub(1)?;
        Some((self.above().relative(last / ENTRIES), last % ENTRIES + 1))
    }
}

/// Where an address stands.
#[derive(Clone, Copy, Debug, PartialEq, Eq)]
pub struct Place {
    /// The relative number of the block that has it.
    pub holder: i32,
    /// The data word of that block.
    pub word: usize,
}

/// Where the index has the address of the block with this relative number, which is not the FIB's.
pub fn place(relative: i32) -> Place {
    let (level, at) = Level::of(relative);
    match at.checked_sub(level.in_fib()) {
        None => Place { holder: FIB, word: level.fib_word(at) },
        Some(at) => {
            Place { holder: level.above().relative(at / ENTRIES), word: entry_word(at % ENTRIES) }
        }
    }
}

/// The data word of a direct entry, an indirect entry or a pointer block's entry.
pub fn direct_word(entry: u32) -> usize {
    Data.fib_word(entry)
}

pub fn indirect_word(entry: u32) -> usize {
    Pointer.fib_word(entry)
}

pub fn entry_word(entry: u32) -> usize {
    2 * entry as usize
}
