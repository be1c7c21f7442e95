//! The calls that change nothing: next file, read, show, show of a pair, reading the description,
//! and extract (a whole file; not in perq.h, refused in the order 1, 2, 6, 4, 3).

use crate::answer::{settle, Answer, Refusal, REFUSED};
use crate::file::{candidate, file_at, well_formed, DESCRIPTION};
use crate::image::{Partition, DATA, HEADER, RECORD};
use crate::index::LAST_RELATIVE;

/// a = the lowest file above `after`; absent if there is none.
pub fn next_file(image: &[u8], drive: u32, s: u32, after: u32) -> Answer {
    let found = || {
        let partition = Partition::named(image, drive, s)?;
        let file =
            |&f: &u32| candidate(&partition, f) && well_formed(&partition, f, |_| ()).is_some();
        let lowest = after.saturating_add(1).max(s + 1);
        let next = (lowest..=partition.e).find(file);
        Ok(next.map_or(Answer::absent(), |f| Answer::done(f, 0, 0)))
    };
    settle(found())
}

/// The block that is relative block r of file f, or none if absent; numbers 6, 4 and 7 are judged here.
fn find(partition: &Partition, f: u32, r: u32) -> Result<Option<u32>, Refusal> {
    let file = file_at(partition, f)?;
    Refusal::unless(r <= LAST_RELATIVE, 7)?;
    Ok((r < file.length()).then(|| file.data_block(partition, r)))
}

/// Fills the 512-byte buffer: with the block's bytes, or with zeros if absent.
pub fn read(image: &[u8], drive: u32, s: u32, f: u32, r: u32, buffer: &mut [u8]) -> Answer {
    let mut copied = || {
        let partition = Partition::named(image, drive, s)?;
        Refusal::unless(buffer.len() == DATA, 3)?;
        match find(&partition, f, r)? {
            Some(b) => {
                buffer.copy_from_slice(partition.image.data(b));
                Ok(Answer::done(0, 0, 0))
            }
            None => {
                buffer.fill(0);
                Ok(Answer::absent())
            }
        }
    };
    settle(copied())
}

/// a = the offset in the image of the block's bytes, b = 512.
pub fn show(image: &[u8], drive: u32, s: u32, f: u32, r: u32) -> Answer {
    let shown = || {
        let partition = Partition::named(image, drive, s)?;
        let offset = |b| (RECORD * b as usize + HEADER) as u32;
        let found = find(&partition, f, r)?;
        Ok(found.map_or(Answer::absent(), |b| Answer::done(offset(b), DATA as u32, 0)))
    };
    settle(shown())
}

/// As show; c = 1 if the answer is the repaired image's, 2 if it is the original's.
pub fn show_pair(original: &[u8], repaired: &[u8], drive: u32, s: u32, f: u32, r: u32) -> Answer {
    let answer = show(repaired, drive, s, f, r);
    if answer.outcome != REFUSED {
        return Answer { c: 1, ..answer };
    }
    Answer { c: 2, ..show(original, drive, s, f, r) }
}

/// Copies the 104 bytes of the description out.
pub fn description(image: &[u8], drive: u32, s: u32, f: u32, buffer: &mut [u8]) -> Answer {
    let mut copied = || {
        let partition = Partition::named(image, drive, s)?;
        Refusal::unless(buffer.len() == DESCRIPTION, 3)?;
        let file = file_at(&partition, f)?;
        buffer.copy_from_slice(&partition.image.data(file.f)[..DESCRIPTION]);
        Ok(Answer::done(0, 0, 0))
    };
    settle(copied())
}

/// Copies the whole file, block after block, to a buffer of 512*(L+1) bytes; a = L+1.
pub fn extract(image: &[u8], drive: u32, s: u32, f: u32, buffer: &mut [u8]) -> Answer {
    let mut copied = || {
        let partition = Partition::named(image, drive, s)?;
        let file = file_at(&partition, f)?;
        Refusal::unless(buffer.len() == DATA * file.length() as usize, 3)?;
        for (r, part) in buffer.chunks_exact_mut(DATA).enumerate() {
            let b = file.data_block(&partition, r as u32);
            part.copy_from_slice(partition.image.data(b));
        }
        Ok(Answer::done(file.length(), 0, 0))
    };
    settle(copied())
}
