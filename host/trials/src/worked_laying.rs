//! The lines `partition`, `file` and `chain` of tests/worked: a partition whose files are laid by rule.

use crate::images::{set_pair, set_word, Place, DATA_WORD};
use reference::{lbn_to_lda, DONE};
use std::collections::BTreeMap;

/// A partition, the files that are laid into it, and the blocks that they take.
#[derive(Clone, Debug)]
pub struct Laying {
    place: Place,
    files: Vec<LaidFile>,
    /// Whether a file took block b, at place b - s; the first place is the PIB's.
    taken: Vec<bool>,
    chained: bool,
}

/// The LBN of each block of a file by its relative number, -1 being the FIB: ascending, they stand in the order of their links.
#[derive(Clone, Debug)]
struct LaidFile {
    kind: u16,
    blocks: BTreeMap<i32, u32>,
}

impl Laying {
    /// `partition E`, in a case with this drive, so many records and this s
    pub fn partition(words: &[&str], drive: u32, n: u32, s: u32) -> Option<Laying> {
        let ["partition", e] = words else { return None };
        let e: u32 = e.parse().ok()?;
        if s < 1 || e <= s || e >= n || lbn_to_lda(drive, e).outcome != DONE {
            return None;
        }
        let mut taken = vec![false; (e - s + 1) as usize];
        taken[0] = true;
        let place = Place { drive, n, s, e };
        Some(Laying { place, files: Vec::new(), taken, chained: false })
    }

    /// `file F kind K blocks C at A step T`, before the chain
    pub fn file(&mut self, words: &[&str]) -> Option<()> {
        let ["file", f, "kind", kind, "blocks", count, "at", at, "step", step] = words else {
            return None;
        };
        let (kind, count): (u16, u16) = (kind.parse().ok()?, count.parse().ok()?);
        let (at, step): (u32, i32) = (at.parse().ok()?, step.parse().ok()?);
        if self.chained || ![1, -1].contains(&step) {
            return None;
        }
        let mut blocks = BTreeMap::from([(-1, self.take(f.parse().ok()?)?)]);
        for (i, relative) in (0..).zip(relatives(i32::from(count))) {
            blocks.insert(relative, self.take(at.checked_add_signed(step * i)?)?);
        }
        self.files.push(LaidFile { kind, blocks });
        Some(())
    }

    /// `chain`, once
    pub fn chain(&mut self, words: &[&str]) -> Option<()> {
        (words == ["chain"] && !self.chained).then(|| self.chained = true)
    }

    /// Block b, if it is in the partition and no file has it.
    fn take(&mut self, b: u32) -> Option<u32> {
        let taken = self.taken.get_mut(b.checked_sub(self.place.s)? as usize)?;
        (!std::mem::replace(taken, true)).then_some(b)
    }

    /// Lays it into an image.
    pub fn lay(&self, image: &mut [u8]) {
        let Place { s, e, .. } = self.place;
        set_pair(image, s, DATA_WORD + 118, self.place.lda(s));
        set_pair(image, s, DATA_WORD + 120, self.place.lda(e));
        for file in &self.files {
            file.lay(image, &self.place);
        }
        if self.chained {
            let free = (s..=e).zip(&self.taken).filter(|(_, &taken)| !taken).map(|(b, _)| b);
            lay_chain(image, &self.place, &free.collect::<Vec<u32>>());
        }
    }
}

/// The relative numbers, but the FIB's, of a file with so many data blocks, ascending: its pointer blocks, -3 and -2, its data.
fn relatives(count: i32) -> impl Iterator<Item = i32> {
    let naming = |blocks: i32| (blocks.max(0) + 127) / 128;
    let pointers = naming(count - 64);
    let doubles = naming(pointers - 32);
    (-3 - pointers..=-4).chain(-1 - doubles..=-2).chain(0..count)
}

/// Where the address of the block with this relative number stands: in the block with which number, from which data word on.
fn entry(relative: i32) -> (i32, usize) {
    let (holder, first, at) = match relative {
        64.. => (-4 - (relative - 64) / 128, 0, (relative - 64) % 128),
        0..64 => (-1, 52, relative),
        -3..0 => (-1, 244, -2 - relative),
        -35..-3 => (-1, 180, -4 - relative),
        -163..-35 => (-2, 0, -36 - relative),
        _ => (-3, 0, -164 - relative),
    };
    (holder, first + 2 * at as usize)
}

impl LaidFile {
    fn lay(&self, image: &mut [u8], place: &Place) {
        let f = self.blocks[&-1];
        lay_links(image, place, self.blocks.values().copied());
        for (&relative, &b) in &self.blocks {
            set_pair(image, b, 0, place.pda(f));
            set_word(image, b, 2, relative as u16);
            if relative >= 0 {
                set_word(image, b, DATA_WORD, relative as u16);
            }
            if relative != -1 {
                let (holder, word) = entry(relative);
                set_pair(image, self.blocks[&holder], DATA_WORD + word, place.lda(b));
            }
        }
        set_word(image, f, DATA_WORD + 248, self.kind);
        set_word(image, f, DATA_WORD + 249, self.blocks.len() as u16);
        let ends = [(250, self.blocks.last_key_value()), (253, self.blocks.first_key_value())];
        for (word, end) in ends {
            let (&relative, &b) = end.expect("a file has its FIB");
            set_word(image, f, DATA_WORD + word, relative as u16);
            set_pair(image, f, DATA_WORD + word + 1, place.lda(b));
        }
    }
}

/// Links the blocks both ways in this order, nil at the ends.
fn lay_links(image: &mut [u8], place: &Place, blocks: impl Iterator<Item = u32>) {
    let mut before = None;
    for b in blocks {
        if let Some(before) = before {
            set_pair(image, before, 4, place.pda(b));
            set_pair(image, b, 6, place.pda(before));
        }
        before = Some(b);
    }
}

/// Chains these blocks, which are all zeros, and sets words 0-5 of the PIB.
fn lay_chain(image: &mut [u8], place: &Place, free: &[u32]) {
    lay_links(image, place, free.iter().copied());
    let (Some(&first), Some(&last)) = (free.first(), free.last()) else { return };
    for &b in free {
        set_word(image, b, 3, first as u16);
    }
    set_pair(image, place.s, DATA_WORD, place.lda(first));
    set_pair(image, place.s, DATA_WORD + 2, place.lda(last));
    set_pair(image, place.s, DATA_WORD + 4, free.len() as u32);
}
