//! What a call of the library was asked about, and the sentence of its refusal with the blocks in it.

use crate::problem::Problem;
use crate::repairing;
use perq::{Drive, Refusal, RECORD};

/// The arguments of a call that its refusal may be about.
#[derive(Clone, Copy)]
pub struct Asked<'a> {
    image: &'a [u8],
    drive: Drive,
    s: u32,
    f: u32,
    r: u32,
}

impl<'a> Asked<'a> {
    /// About a partition.
    pub fn of(image: &'a [u8], drive: Drive, s: u32) -> Asked<'a> {
        Asked { image, drive, s, f: 0, r: 0 }
    }

    pub fn file(self, f: u32) -> Asked<'a> {
        Asked { f, ..self }
    }

    pub fn block(self, r: u32) -> Asked<'a> {
        Asked { r, ..self }
    }

    /// The refusal of the call, in words about what it was asked.
    pub fn refused(&self, refusal: Refusal) -> Problem {
        let Asked { image, drive, s, f, r } = *self;
        let told = match refusal {
            Refusal::Image => not_an_image(image.len() as u64, drive),
            Refusal::Partition => format!("no good partition starts at block {s}"),
            Refusal::Malformed { block } => format!("block {block} is a malformed file block"),
            Refusal::Unsound => {
                let hint = repairing::hint(image, drive, s);
                format!("the partition at block {s} is not sound; {hint}")
            }
            Refusal::NoFile => format!("block {f} is no file of the partition at block {s}"),
            Refusal::Range => format!("block {r} is beyond what file {f} can have"),
            Refusal::Full => format!("the partition at block {s} has too few free blocks"),
            Refusal::NoFreeBlock => {
                format!(
                    "the partition at block {s} has no free block, so there is no chain to repair"
                )
            }
            Refusal::Buffer | Refusal::Address | Refusal::TooDeep { .. } | Refusal::Name(_) => {
                return refusal.into()
            }
        };
        Problem::refused(refusal, &told)
    }
}

/// Why so many bytes are no image of the drive.
pub fn not_an_image(length: u64, drive: Drive) -> String {
    let (records, rest) = (length / RECORD as u64, length % RECORD as u64);
    if length == 0 {
        "the image is empty".to_string()
    } else if rest != 0 {
        format!("the image's {length} bytes are no whole number of 528-byte records")
    } else {
        format!(
            "the image has {records} blocks, and drive {} ({drive}) only {}",
            drive.number(),
            drive.blocks()
        )
    }
}
