//! The four drives, and the names of a block: LBN, PDA, LDA and FileID.
//! An address of two words is one number: low word + 65536 * high word.

use crate::answer::{settle, Answer, Refusal};

/// Two zero words, in PDAs and LDAs alike.
pub const NIL: u32 = 0;

/// The first FileID that is a floppy's.
const FLOPPY_FILEIDS: u32 = 57_344;

#[derive(Clone, Copy, Debug, PartialEq, Eq)]
pub enum Drive {
    Shugart12,
    Shugart24,
    Micropolis35,
    Floppy,
}

use Drive::*;

impl Drive {
    pub const ALL: [Drive; 4] = [Shugart12, Shugart24, Micropolis35, Floppy];

    pub fn numbered(drive: u32) -> Option<Drive> {
        Drive::ALL.get(drive as usize).copied()
    }

    /// How many LBNs the drive has.
    pub fn blocks(self) -> u32 {
        match self {
            Shugart12 => 24_210,
            Shugart24 => 48_450,
            Micropolis35 => 69_552,
            Floppy => 432,
        }
    }

    fn has(self, lbn: u32) -> Option<u32> {
        (lbn < self.blocks()).then_some(lbn)
    }

    /// The PDA of an LBN of the drive.
    pub fn pda(self, lbn: u32) -> u32 {
        match self {
            Shugart12 => shugart_pda(lbn, 4),
            Shugart24 => shugart_pda(lbn, 8),
            Micropolis35 => {
                let sector = lbn + 48;
                let track = sector / 24;
                (track / 5) << 16 | (track % 5) << 8 | (sector % 24)
            }
            Floppy => (5 + lbn / 6) << 16 | (3 + 4 * (lbn % 6)),
        }
    }

    /// The LBN whose PDA this is, if there is one.
    pub fn lbn_of_pda(self, pda: u32) -> Option<u32> {
        match self {
            Shugart12 => self.has(shugart_lbn(pda, 4)?),
            Shugart24 => self.has(shugart_lbn(pda, 8)?),
            Micropolis35 => {
                let (cylinder, track, sector) = (pda >> 16, pda >> 8 & 0xFF, pda & 0xFF);
                if track >= 5 || sector >= 24 {
                    return None;
                }
                self.has(((cylinder * 5 + track) * 24 + sector).checked_sub(48)?)
            }
            Floppy => {
                let cylinder = (pda >> 16).checked_sub(5)?;
                let sector = (pda & 0xFFFF).checked_sub(3)?;
                if sector % 4 != 0 || sector / 4 >= 6 {
                    return None;
                }
                self.has(cylinder * 6 + sector / 4)
            }
        }
    }

    /// Bits 11-15 of an LDA's high word, in their place: 11 and then 000 or 100, bit 15 first.
    fn lda_mark(self) -> u32 {
        match self {
            Floppy => 0b11100 << 27,
            _ => 0b11000 << 27,
        }
    }

    /// The clean LDA of an LBN of the drive: the LBN's 19 bits stand at bits 8-26, and bits 0-7, which
    /// are reserved, are zero.
    pub fn lda(self, lbn: u32) -> u32 {
        self.lda_mark() | lbn << 8
    }

    /// The LBN that an LDA names, if it is one. The reserved bits are not looked at; without the mark
    /// they make no address, so that nil, and what has only such bits, names nothing.
    pub fn lbn_of_lda(self, lda: u32) -> Option<u32> {
        if lda & (0b11111 << 27) != self.lda_mark() {
            return None;
        }
        self.has(lda >> 8 & 0x7_FFFF)
    }

    /// What is to stand where `old` stands, so that it names an LBN of the drive: `old` as it is, with
    /// its reserved bits, if it names the LBN already, and else the clean LDA.
    pub fn kept_or_clean_lda(self, old: u32, lbn: u32) -> u32 {
        match self.lbn_of_lda(old) {
            Some(named) if named == lbn => old,
            _ => self.lda(lbn),
        }
    }

    /// The FileID of an LBN, if both exist.
    pub fn fileid(self, lbn: u32) -> Option<u32> {
        let lbn = self.has(lbn)?;
        match self {
            Floppy => Some(FLOPPY_FILEIDS + lbn),
            _ => (lbn < FLOPPY_FILEIDS).then_some(lbn),
        }
    }

    /// The LBN whose FileID this is, if there is one.
    pub fn lbn_of_fileid(self, fileid: u32) -> Option<u32> {
        match self {
            Floppy => self.has(fileid.checked_sub(FLOPPY_FILEIDS)?),
            _ if fileid < FLOPPY_FILEIDS => self.has(fileid),
            _ => None,
        }
    }
}

fn shugart_pda(lbn: u32, tracks: u32) -> u32 {
    let sector = lbn + 30;
    let track = sector / 30;
    (track / tracks) << 8 | (track % tracks) << 5 | (sector % 30)
}

fn shugart_lbn(pda: u32, tracks: u32) -> Option<u32> {
    let (cylinder, track, sector) = (pda >> 8 & 0xFF, pda >> 5 & 7, pda & 31);
    if pda >> 16 != 0 || track >= tracks || sector >= 30 {
        return None;
    }
    ((cylinder * tracks + track) * 30 + sector).checked_sub(30)
}

/// Conversions answer 1 for the drive, otherwise 10.
fn convert(drive: u32, by: impl Fn(Drive) -> Option<u32>) -> Answer {
    let converted = || {
        let drive = Drive::numbered(drive).ok_or(Refusal { number: 1, block: 0 })?;
        let number = by(drive).ok_or(Refusal { number: 10, block: 0 })?;
        Ok(Answer::done(number, 0, 0))
    };
    settle(converted())
}

pub fn lbn_to_pda(drive: u32, lbn: u32) -> Answer {
    convert(drive, |d| d.has(lbn).map(|lbn| d.pda(lbn)))
}

pub fn pda_to_lbn(drive: u32, pda: u32) -> Answer {
    convert(drive, |d| d.lbn_of_pda(pda))
}

pub fn lbn_to_lda(drive: u32, lbn: u32) -> Answer {
    convert(drive, |d| d.has(lbn).map(|lbn| d.lda(lbn)))
}

pub fn lda_to_lbn(drive: u32, lda: u32) -> Answer {
    convert(drive, |d| d.lbn_of_lda(lda))
}

pub fn lbn_to_fileid(drive: u32, lbn: u32) -> Answer {
    convert(drive, |d| d.fileid(lbn))
}

pub fn fileid_to_lbn(drive: u32, fileid: u32) -> Answer {
    convert(drive, |d| d.lbn_of_fileid(fileid))
}
