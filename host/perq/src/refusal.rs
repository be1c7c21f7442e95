//! Why a call refuses, and the step from a raw answer to a result.

use crate::raw::{Answer, ABSENT, DONE, REFUSED};
use crate::NameFault;
use std::error::Error;
use std::fmt;

/// Why a call refused. Nothing was stored then, and no buffer was touched.
///
/// ```
/// use perq::{lbn_to_fileid, Drive, NameFault, Refusal};
///
/// let refusal = lbn_to_fileid(Drive::Micropolis35, 57_344).unwrap_err();
/// assert_eq!(refusal, Refusal::Address);
/// assert_eq!(refusal.to_string(), "refused (10): this number is no block, address or FileID of the drive");
/// assert_eq!(
///     Refusal::Malformed { block: 812 }.to_string(),
///     "refused (4): block 812 is a malformed file block"
/// );
/// assert_eq!(
///     Refusal::TooDeep { block: 812 }.to_string(),
///     "refused (11): the directory at block 812 is of the tenth level, and only nine are looked into"
/// );
/// assert_eq!(
///     Refusal::Name(NameFault::Length { length: 81 }).to_string(),
///     "refused (12): the name has 81 characters, and 80 is the most"
/// );
/// ```
#[derive(Clone, Copy, Debug, PartialEq, Eq, Hash)]
pub enum Refusal {
    /// 1: the image's length is zero, is no multiple of 528 or is more than the drive has; or the drive is above 3.
    Image,
    /// 2: no good partition starts at the block that was named.
    Partition,
    /// 3: a block's buffer is not 512 bytes, a description's not 104, or a whole file's not 512 for each block; a hash rule
    /// has neither 26 bytes nor none; or a tree's rows are no multiple of 32 bytes.
    Buffer,
    /// 4: a block looks like a file's own block, but what it says does not hold together.
    Malformed {
        /// The LBN of that block; the lowest, where the whole partition is asked about.
        block: u32,
    },
    /// 5: every file is well formed, but links, unused entries or the free chain are not as they must be.
    Unsound,
    /// 6: the block that was named is no file of this partition; in `look_up` and `tree`, its root directory is none.
    NoFile,
    /// 7: the block number is above 32,766, or in a write more than one past the file's last block.
    Range,
    /// 8: too few blocks are free; the last one is never handed out.
    Full,
    /// 9: repair found no block that is free.
    NoFreeBlock,
    /// 10: a number that is no block, address or FileID of the drive; nil is none.
    Address,
    /// 11: a directory of the tenth level would have to be looked into; the root is of the first.
    TooDeep {
        /// The LBN of that directory.
        block: u32,
    },
    /// 12: the name in a description is one that `describe` does not take.
    Name(
        /// Which rule it breaks, and where.
        NameFault,
    ),
}

impl Refusal {
    /// The refusal's number, 1 to 12.
    pub fn number(self) -> u32 {
        match self {
            Refusal::Image => 1,
            Refusal::Partition => 2,
            Refusal::Buffer => 3,
            Refusal::Malformed { .. } => 4,
            Refusal::Unsound => 5,
            Refusal::NoFile => 6,
            Refusal::Range => 7,
            Refusal::Full => 8,
            Refusal::NoFreeBlock => 9,
            Refusal::Address => 10,
            Refusal::TooDeep { .. } => 11,
            Refusal::Name(_) => 12,
        }
    }

    /// The refusal of a number from 1 to 11; `block` is only looked at for 4 and 11. Which fault 12 is about does not stand in
    /// an answer: [`name`](crate::name) says it of the description.
    pub fn from_number(number: u32, block: u32) -> Option<Refusal> {
        Some(match number {
            1 => Refusal::Image,
            2 => Refusal::Partition,
            3 => Refusal::Buffer,
            4 => Refusal::Malformed { block },
            5 => Refusal::Unsound,
            6 => Refusal::NoFile,
            7 => Refusal::Range,
            8 => Refusal::Full,
            9 => Refusal::NoFreeBlock,
            10 => Refusal::Address,
            11 => Refusal::TooDeep { block },
            _ => return None,
        })
    }
}

impl fmt::Display for Refusal {
    fn fmt(&self, out: &mut fmt::Formatter<'_>) -> fmt::Result {
        write!(out, "refused ({}): ", self.number())?;
        match self {
            Refusal::Image => out.write_str(
                "the image is empty, not made of 528-byte records, or too long for the drive",
            ),
            Refusal::Partition => out.write_str("no good partition starts at this block"),
            Refusal::Buffer => out.write_str(
                "the buffer, the hash rule or the rows have a length that the call does not take",
            ),
            Refusal::Malformed { block } => write!(out, "block {block} is a malformed file block"),
            Refusal::Unsound => {
                out.write_str("the partition is not sound; repair mends it unless no block is free")
            }
            Refusal::NoFile => out.write_str(
                "this block, or the root directory, is no file of the partition",
            ),
            Refusal::Range => out.write_str("the block number is beyond what the file can have"),
            Refusal::Full => out.write_str("the partition has too few free blocks"),
            Refusal::NoFreeBlock => {
                out.write_str("the partition has no free block, so there is no chain to repair")
            }
            Refusal::Address => {
                out.write_str("this number is no block, address or FileID of the drive")
            }
            Refusal::TooDeep { block } => write!(
                out,
                "the directory at block {block} is of the tenth level, and only nine are looked into"
            ),
            Refusal::Name(fault) => fault.fmt(out),
        }
    }
}

impl Error for Refusal {}

impl From<NameFault> for Refusal {
    fn from(fault: NameFault) -> Refusal {
        Refusal::Name(fault)
    }
}

/// The answer of a call that may also find nothing.
///
/// # Panics
/// On an outcome or a number that the interface does not have, and on 12, of which `describe` says more.
pub(crate) fn found(answer: Answer) -> Result<Option<Answer>, Refusal> {
    match answer.outcome {
        DONE => Ok(Some(answer)),
        ABSENT => Ok(None),
        REFUSED => {
            Err(Refusal::from_number(answer.number, answer.block).expect("a number from 1 to 11"))
        }
        other => panic!("the library answered with outcome {other}"),
    }
}

/// The answer of a call that is done or refused.
pub(crate) fn done(answer: Answer) -> Result<Answer, Refusal> {
    found(answer).map(|answer| answer.expect("a call with no absent outcome"))
}
