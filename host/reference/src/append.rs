//! Write at r = L+1: the file gets one data block more, at r = 64 + 128j a pointer block over it, and at
//! r = 4,160 and 20,544 one of the double index over that.

use crate::address::NIL;
use crate::allocation::{first_free, store_allocation};
use crate::answer::Refusal;
use crate::file::{
    File, BLOCKS_IN_USE, LAST_ADDRESS, LAST_BLOCK, LAST_NEGATIVE, LAST_NEGATIVE_ADDRESS,
};
use crate::image::Partition;
use crate::index::{place, Level, FIB};
use crate::plan::Plan;
use crate::record::Record;

/// What an append to `old` makes of it.
struct Append<'a> {
    partition: &'a Partition<'a>,
    old: &'a File,
    new: File,
    /// The blocks that are new to the file, by relative number: data, then what comes over it.
    taken: Vec<(i32, u32)>,
}

/// The plan of an append to a file of a sound partition; number 8 is judged here.
pub fn append(partition: &Partition, old: &File, buffer: &[u8]) -> Result<Plan, Refusal> {
    let new = File { f: old.f, last: old.last + 1 };
    let grows = |&level: &Level| new.count(level) > old.count(level);
    let added = Level::ALL.into_iter().filter(grows).map(|level| level.relative(old.count(level)));
    let free = first_free(partition, new.blocks_in_use() - old.blocks_in_use())?;
    let taken = added.zip(free.iter().copied()).collect();
    let call = Append { partition, old, new, taken };
    let mut stores: Vec<_> = call.stored().iter().map(|&at| call.store(at, buffer)).collect();
    store_allocation(partition, &free, &mut stores);
    Ok(Plan::done(stores, Some(old.f), 0))
}

impl Append<'_> {
    /// The block with this relative number, if it is new to the file.
    fn taken(&self, relative: i32) -> Option<u32> {
        self.taken.iter().find(|taken| taken.0 == relative).map(|taken| taken.1)
    }

    /// The file's blocks that are stored, in their order: the data; the blocks that name what is new,
    /// but the FIB; those where only links change, which are the neighbours of a new -2 or -3, the old
    /// last block, and the old most negative one if a pointer block is new; the FIB.
    fn stored(&self) -> Vec<i32> {
        let mut stored = vec![self.new.last];
        stored.extend(self.taken.iter().map(|&(relative, _)| place(relative).holder));
        for &(relative, _) in &self.taken {
            if Level::of(relative).0 == Level::Double {
                stored.extend(self.new.previous(relative));
                stored.extend(self.new.next(relative));
            }
        }
        stored.push(self.old.last);
        if self.new.last_negative() != self.old.last_negative() {
            stored.push(self.old.last_negative());
        }
        stored.retain(|&relative| relative != FIB);
        stored.push(FIB);
        stored
    }

    /// The block with this relative number in the new file, and its record there.
    fn store(&self, relative: i32, buffer: &[u8]) -> (u32, Record) {
        let b = self.block(relative);
        let mut record = Record::of(&self.partition.image, b);
        if self.taken(relative).is_some() {
            record.set_serial(self.link(Some(FIB)));
            record.set_relative(relative);
            record.clear_data();
        }
        record.set_next(self.link(self.new.next(relative)));
        record.set_previous(self.link(self.new.previous(relative)));
        for &(relative_of_new, new) in &self.taken {
            let place = place(relative_of_new);
            if place.holder == relative {
                record.set_lda(place.word, new);
            }
        }
        match relative {
            FIB => self.set_tallies(&mut record),
            _ if relative == self.new.last => record.set_data(buffer),
            _ => (),
        }
        (b, record)
    }

    fn block(&self, relative: i32) -> u32 {
        self.taken(relative).unwrap_or_else(|| self.old.block(self.partition, relative))
    }

    /// The PDA of the block with this relative number, nil for none.
    fn link(&self, relative: Option<i32>) -> u32 {
        relative.map_or(NIL, |relative| self.partition.image.drive.pda(self.block(relative)))
    }

    /// Words 249-255 of the FIB. A last negative address that stays keeps its reserved bits.
    fn set_tallies(&self, fib: &mut Record) {
        fib.set_data_word(BLOCKS_IN_USE, self.new.blocks_in_use() as u16);
        fib.set_data_word(LAST_BLOCK, self.new.last as u16);
        fib.set_lda(LAST_ADDRESS, self.block(self.new.last));
        fib.set_data_word(LAST_NEGATIVE, self.new.last_negative() as u16);
        fib.set_lda(LAST_NEGATIVE_ADDRESS, self.block(self.new.last_negative()));
    }
}
