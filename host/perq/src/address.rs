//! The three ways to name a block besides its LBN. An address of two words is one number: low + 65,536 * high.

use crate::refusal::done;
use crate::{raw, Drive, Refusal};
use std::fmt;

/// The physical disk address of a block: cylinder, track and sector, as headers hold it.
pub fn lbn_to_pda(drive: Drive, lbn: u32) -> Result<u32, Refusal> {
    Ok(done(raw::lbn_to_pda(drive.number(), lbn))?.a)
}

/// The block of a physical disk address.
pub fn pda_to_lbn(drive: Drive, pda: u32) -> Result<u32, Refusal> {
    Ok(done(raw::pda_to_lbn(drive.number(), pda))?.a)
}

/// The logical disk address of a block, as indexes and the partition's own block hold it; its reserved bits are zero.
pub fn lbn_to_lda(drive: Drive, lbn: u32) -> Result<u32, Refusal> {
    Ok(done(raw::lbn_to_lda(drive.number(), lbn))?.a)
}

/// The block of a logical disk address. Its reserved bits, 0-7 of the low word, are ignored.
///
/// ```
/// use perq::{lbn_to_lda, lda_to_lbn, Drive};
///
/// let lda = 65_536 * 0o140000 + 0o151000;
/// assert_eq!(lbn_to_lda(Drive::Shugart24, 210), Ok(lda));
/// assert_eq!(lda_to_lbn(Drive::Shugart24, lda + 0o17), Ok(210));
/// ```
pub fn lda_to_lbn(drive: Drive, lda: u32) -> Result<u32, Refusal> {
    Ok(done(raw::lda_to_lbn(drive.number(), lda))?.a)
}

/// The FileID of a block.
///
/// ```
/// use perq::{lbn_to_fileid, Drive};
///
/// assert_eq!(lbn_to_fileid(Drive::Floppy, 431), Ok(57_775));
/// ```
pub fn lbn_to_fileid(drive: Drive, lbn: u32) -> Result<u32, Refusal> {
    Ok(done(raw::lbn_to_fileid(drive.number(), lbn))?.a)
}

/// The block of a FileID.
pub fn fileid_to_lbn(drive: Drive, fileid: u32) -> Result<u32, Refusal> {
    Ok(done(raw::fileid_to_lbn(drive.number(), fileid))?.a)
}

/// An address as the PERQ's manual prints it: the low word, then the high word, six octal digits each.
///
/// ```
/// assert_eq!(perq::Words(65_536 * 0o1103 + 0o2027).to_string(), "002027 001103");
/// ```
#[derive(Clone, Copy, Debug, PartialEq, Eq, Hash)]
pub struct Words(
    /// The address as one number.
    pub u32,
);

impl Words {
    /// The low word.
    pub fn low(self) -> u16 {
        self.0 as u16
    }

    /// The high word.
    pub fn high(self) -> u16 {
        (self.0 >> 16) as u16
    }
}

impl fmt::Display for Words {
    fn fmt(&self, out: &mut fmt::Formatter<'_>) -> fmt::Result {
        write!(out, "{:06o} {:06o}", self.low(), self.high())
    }
}
