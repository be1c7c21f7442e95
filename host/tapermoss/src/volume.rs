//! What an image says of its partitions, and what a partition says of its blocks. Whether a partition is good and
//! whether a block is a file is the library's answer; the rest is read from fields that the answer vouches for.

use crate::fields::{self, PARTITION_END, SUB_PARTITIONS, TABLE};
use perq::{Drive, Refusal};

/// Every block at which a good partition starts. Asked for a file after the last block, the library looks at nothing
/// but the partition's own block.
pub fn good(image: &[u8], drive: Drive) -> Result<Vec<u32>, Refusal> {
    let mut found = Vec::new();
    for s in 0..blocks(image, drive)? {
        match perq::next_file(image, drive, s, u32::MAX) {
            Ok(_) => found.push(s),
            Err(Refusal::Partition) => {}
            Err(refusal) => return Err(refusal),
        }
    }
    Ok(found)
}

/// How many blocks the image has, if it is one of the drive.
fn blocks(image: &[u8], drive: Drive) -> Result<u32, Refusal> {
    match perq::next_file(image, drive, 0, u32::MAX) {
        Err(Refusal::Image) => Err(Refusal::Image),
        _ => Ok((image.len() / perq::RECORD) as u32),
    }
}

/// The last block of a good partition.
pub fn last(image: &[u8], drive: Drive, s: u32) -> Result<u32, Refusal> {
    perq::next_file(image, drive, s, u32::MAX)?;
    perq::lda_to_lbn(drive, fields::pair(image, s, PARTITION_END))
}

/// The files of a partition; none if it is not good.
pub fn files_of(image: &[u8], drive: Drive, s: u32) -> impl Iterator<Item = u32> + '_ {
    perq::files(image, drive, s).into_iter().flatten()
}

/// How many blocks of a partition have, read as a drive's, the serial and the relative number of a file's own block.
pub fn candidates(image: &[u8], drive: Drive, s: u32, last: u32) -> u32 {
    let is_one = |&block: &u32| {
        perq::lbn_to_pda(drive, block).is_ok_and(|pda| pda == fields::serial(image, block))
            && fields::relative_number(image, block) == -1
    };
    (s + 1..=last).filter(is_one).count() as u32
}

/// The blocks that the device's own table, at LBN 0, lists as the starts of partitions, good or not.
pub fn listed(image: &[u8], drive: Drive) -> Vec<u32> {
    let lda = |i: usize| fields::pair(image, 0, SUB_PARTITIONS + 2 * i);
    let entries = (0..TABLE).filter_map(|i| perq::lda_to_lbn(drive, lda(i)).ok());
    let mut blocks: Vec<u32> = Vec::new();
    for block in entries {
        if !blocks.contains(&block) {
            blocks.push(block);
        }
    }
    blocks
}

/// The file blocks of a partition, ascending.
pub struct Survey {
    pub last: u32,
    pub files: Vec<u32>,
    pub malformed: Vec<u32>,
}

/// Asks the library about every block after the partition's first.
pub fn survey(image: &[u8], drive: Drive, s: u32) -> Result<Survey, Refusal> {
    let last = last(image, drive, s)?;
    let mut survey = Survey { last, files: Vec::new(), malformed: Vec::new() };
    for block in s + 1..=last {
        match perq::description(image, drive, s, block) {
            Ok(_) => survey.files.push(block),
            Err(Refusal::Malformed { .. }) => survey.malformed.push(block),
            Err(_) => {}
        }
    }
    Ok(survey)
}
