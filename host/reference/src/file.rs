//! Candidates, and what makes a candidate well formed: a file.

use crate::address::NIL;
use crate::answer::Refusal;
use crate::image::Partition;
use crate::index::{place, Level, LAST_RELATIVE};

pub use crate::index::{direct_word, entry_word, indirect_word, DIRECT, DOUBLE, FIB};

/// Data words of a FIB behind its index.
pub const KIND: usize = 248;
pub const BLOCKS_IN_USE: usize = 249;
pub const LAST_BLOCK: usize = 250;
pub const LAST_ADDRESS: usize = 251;
pub const LAST_NEGATIVE: usize = 253;
pub const LAST_NEGATIVE_ADDRESS: usize = 254;

/// Bytes of a description: data words 0-51 of a FIB.
pub const DESCRIPTION: usize = 104;

/// A file: its FIB, and its last block L.
#[derive(Clone, Copy, Debug, PartialEq, Eq)]
pub struct File {
    pub f: u32,
    pub last: i32,
}

impl File {
    /// How many data blocks it has: L+1.
    pub fn length(&self) -> u32 {
        (self.last + 1) as u32
    }

    /// How many blocks of a level are needed for 0..L.
    pub fn count(&self, level: Level) -> u32 {
        level.count(self.length())
    }

    /// The FIB, and the blocks of every level.
    pub fn blocks_in_use(&self) -> u32 {
        1 + Level::ALL.map(|level| self.count(level)).iter().sum::<u32>()
    }

    /// The number of the most negative block: -(3+P) with P pointer blocks over data, or -1 when P = 0.
    pub fn last_negative(&self) -> i32 {
        match self.count(Level::Pointer) {
            0 => FIB,
            p => Level::Pointer.relative(p - 1),
        }
    }

    /// The relative number after -4: the most negative of the double index and the FIB.
    fn after_pointers(&self) -> i32 {
        FIB - self.count(Level::Double) as i32
    }

    /// Its relative numbers in link order: -(3+P) ... -5, -4, then -3 and -2 if they are there, -1,
    /// 0 ... L.
    pub fn linked(&self) -> impl Iterator<Item = i32> {
        let pointers = (0..self.count(Level::Pointer)).rev().map(|at| Level::Pointer.relative(at));
        pointers.chain(self.after_pointers()..=self.last)
    }

    /// The relative number that follows in link order.
    pub fn next(&self, relative: i32) -> Option<i32> {
        match relative {
            -4 => Some(self.after_pointers()),
            _ => Some(relative + 1).filter(|&next| next <= self.last),
        }
    }

    /// The relative number before this one in link order.
    pub fn previous(&self, relative: i32) -> Option<i32> {
        if relative == self.last_negative() {
            None
        } else if relative == self.after_pointers() {
            Some(-4)
        } else {
            Some(relative - 1)
        }
    }

    /// The block that the index names for a relative number, if it is in s+1..e and has the file's
    /// serial and that number, and so have the blocks through which it is found.
    fn find(&self, partition: &Partition, relative: i32) -> Option<u32> {
        if relative == FIB {
            return Some(self.f);
        }
        let image = &partition.image;
        let place = place(relative);
        let holder = self.find(partition, place.holder)?;
        let b = partition.block_of_lda(image.data_pair(holder, place.word))?;
        let right = image.serial(b) == image.drive.pda(self.f) && image.relative(b) == relative;
        right.then_some(b)
    }

    /// The block that has this relative number.
    pub fn block(&self, partition: &Partition, relative: i32) -> u32 {
        self.find(partition, relative).expect("a file's index names its blocks")
    }

    /// The block that is relative block r <= L.
    pub fn data_block(&self, partition: &Partition, r: u32) -> u32 {
        self.block(partition, Level::Data.relative(r))
    }

    /// Block L, the FIB when L = -1.
    pub fn last_data_block(&self, partition: &Partition) -> u32 {
        self.block(partition, self.last)
    }

    /// The most negative block, the FIB when P = 0.
    pub fn most_negative_block(&self, partition: &Partition) -> u32 {
        self.block(partition, self.last_negative())
    }

    /// The blocks of which not all entries may be used, the last of each level that names others: its
    /// relative number, and how many are used.
    pub fn last_holders(&self) -> impl Iterator<Item = (i32, u32)> {
        let length = self.length();
        Level::ALL.into_iter().filter_map(move |level| level.last_holder(length))
    }

    /// Whether every index entry of the FIB that 0..L does not need is nil.
    fn rest_is_nil(&self, partition: &Partition) -> bool {
        Level::ALL.into_iter().all(|level| {
            let nil = |at| partition.image.data_pair(self.f, level.fib_word(at)) == NIL;
            (self.count(level)..level.in_fib()).all(nil)
        })
    }

    /// Whether the FIB's words 249 and 251-255 are those of its index.
    fn tallies(&self, partition: &Partition) -> bool {
        let image = &partition.image;
        let names = |word, b| image.drive.lbn_of_lda(image.data_pair(self.f, word)) == Some(b);
        u32::from(image.data_word(self.f, BLOCKS_IN_USE)) == self.blocks_in_use()
            && names(LAST_ADDRESS, self.last_data_block(partition))
            && image.data_signed(self.f, LAST_NEGATIVE) == self.last_negative()
            && names(LAST_NEGATIVE_ADDRESS, self.most_negative_block(partition))
    }
}

/// Whether block f is in s+1..e, has its own PDA as serial, and relative number -1.
pub fn candidate(partition: &Partition, f: u32) -> bool {
    partition.holds(f)
        && partition.image.relative(f) == FIB
        && partition.image.names(partition.image.serial(f), Some(f))
}

/// The file of candidate f, unless it is malformed. Its blocks go to `each` in link order, as far as
/// they are good.
pub fn well_formed(partition: &Partition, f: u32, mut each: impl FnMut(u32)) -> Option<File> {
    let last = partition.image.data_signed(f, LAST_BLOCK);
    let file = File { f, last };
    if !(-1..=LAST_RELATIVE as i32).contains(&last) || !file.rest_is_nil(partition) {
        return None;
    }
    for relative in file.linked() {
        each(file.find(partition, relative)?);
    }
    file.tallies(partition).then_some(file)
}

/// The file at f; numbers 6 and 4 are judged here, 4 of f alone.
pub fn file_at(partition: &Partition, f: u32) -> Result<File, Refusal> {
    Refusal::unless(candidate(partition, f), 6)?;
    well_formed(partition, f, |_| ()).ok_or(Refusal::malformed(f))
}
