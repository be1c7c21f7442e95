//! Looks into a partition for tests: the free chain, and the files with their blocks in link order.
//! All answer none where the partition is refused by check.

use crate::file::{candidate, well_formed, File};
use crate::image::Partition;
use crate::sound::{sound, Survey};

fn sound_partition(image: &[u8], drive: u32, s: u32) -> Option<(Partition<'_>, Survey)> {
    let partition = Partition::named(image, drive, s).ok()?;
    let survey = sound(&partition).ok()?;
    Some((partition, survey))
}

/// The free blocks in the order of their chain.
pub fn free_chain(image: &[u8], drive: u32, s: u32) -> Option<Vec<u32>> {
    let (partition, _) = sound_partition(image, drive, s)?;
    let next = |&b: &u32| partition.block_of_pda(partition.image.next(b));
    Some(std::iter::successors(partition.free_head(), next).collect())
}

/// The files, ascending.
pub fn files(image: &[u8], drive: u32, s: u32) -> Option<Vec<File>> {
    sound_partition(image, drive, s).map(|(_, survey)| survey.files)
}

/// The blocks of file f in link order: -(3+P) ... -4, then -3 and -2 if they are there, -1, 0 ... L.
pub fn file_blocks(image: &[u8], drive: u32, s: u32, f: u32) -> Option<Vec<u32>> {
    let (partition, _) = sound_partition(image, drive, s)?;
    let mut blocks = Vec::new();
    if candidate(&partition, f) {
        well_formed(&partition, f, |b| blocks.push(b))?;
    }
    (!blocks.is_empty()).then_some(blocks)
}
