//! A lent image that passed number 1, and a partition in it that passed number 2.
//! Words are read here; nothing is written here.

use crate::address::{Drive, NIL};
use crate::answer::Refusal;

/// Bytes of a record: 8 header words, then 256 data words.
pub const RECORD: usize = 528;
/// Bytes of the header in a record.
pub const HEADER: usize = 16;
/// Bytes of the data in a record.
pub const DATA: usize = 512;

/// Header words.
pub const SERIAL: usize = 0;
pub const RELATIVE: usize = 2;
pub const FILLER: usize = 3;
pub const NEXT: usize = 4;
pub const PREVIOUS: usize = 6;

/// Data words of the PIB.
pub const FREE_HEAD: usize = 0;
pub const FREE_TAIL: usize = 2;
pub const NUMBER_FREE: usize = 4;
pub const ROOT_DIRECTORY: usize = 6;
pub const PARTITION_START: usize = 118;
pub const PARTITION_END: usize = 120;

/// The largest size m of a good partition.
const LARGEST: u32 = 32_767;

/// The two words of a record from `word` on, as one number.
pub fn pair_at(record: &[u8], word: usize) -> u32 {
    let bytes = &record[2 * word..2 * word + 4];
    u32::from_le_bytes([bytes[0], bytes[1], bytes[2], bytes[3]])
}

#[derive(Clone, Copy)]
pub struct Image<'a> {
    bytes: &'a [u8],
    pub drive: Drive,
    /// How many records the image has.
    pub n: u32,
}

impl<'a> Image<'a> {
    /// Number 1 is judged here.
    pub fn lent(bytes: &'a [u8], drive: u32) -> Result<Image<'a>, Refusal> {
        let drive = Drive::numbered(drive).ok_or(Refusal { number: 1, block: 0 })?;
        let records = bytes.len() / RECORD;
        let whole = !bytes.is_empty() && bytes.len() % RECORD == 0;
        Refusal::unless(whole && records <= drive.blocks() as usize, 1)?;
        Ok(Image { bytes, drive, n: records as u32 })
    }

    /// The whole record of block b.
    pub fn record(&self, b: u32) -> &'a [u8] {
        &self.bytes[RECORD * b as usize..][..RECORD]
    }

    /// The 512 data bytes of block b.
    pub fn data(&self, b: u32) -> &'a [u8] {
        &self.record(b)[HEADER..]
    }

    fn word(&self, b: u32, word: usize) -> u16 {
        let at = RECORD * b as usize + 2 * word;
        u16::from_le_bytes([self.bytes[at], self.bytes[at + 1]])
    }

    fn pair(&self, b: u32, word: usize) -> u32 {
        pair_at(self.record(b), word)
    }

    pub fn serial(&self, b: u32) -> u32 {
        self.pair(b, SERIAL)
    }

    pub fn relative(&self, b: u32) -> i32 {
        i32::from(self.word(b, RELATIVE) as i16)
    }

    pub fn next(&self, b: u32) -> u32 {
        self.pair(b, NEXT)
    }

    pub fn previous(&self, b: u32) -> u32 {
        self.pair(b, PREVIOUS)
    }

    pub fn data_word(&self, b: u32, word: usize) -> u16 {
        self.word(b, HEADER / 2 + word)
    }

    pub fn data_signed(&self, b: u32, word: usize) -> i32 {
        i32::from(self.data_word(b, word) as i16)
    }

    pub fn data_pair(&self, b: u32, word: usize) -> u32 {
        self.pair(b, HEADER / 2 + word)
    }

    /// Whether a header link names `b`, or is nil for `None`.
    pub fn names(&self, link: u32, b: Option<u32>) -> bool {
        match b {
            Some(_) => self.drive.lbn_of_pda(link) == b,
            None => link == NIL,
        }
    }
}

/// Blocks s to e of an image; block s is the PIB.
#[derive(Clone, Copy)]
pub struct Partition<'a> {
    pub image: Image<'a>,
    pub s: u32,
    pub e: u32,
}

impl<'a> Partition<'a> {
    /// The good partition named by s; numbers 1 and 2 are judged here.
    pub fn named(bytes: &'a [u8], drive: u32, s: u32) -> Result<Partition<'a>, Refusal> {
        let image = Image::lent(bytes, drive)?;
        let none = Refusal { number: 2, block: 0 };
        if s < 1 || s >= image.n {
            return Err(none);
        }
        let start = image.drive.lbn_of_lda(image.data_pair(s, PARTITION_START));
        let end = image.drive.lbn_of_lda(image.data_pair(s, PARTITION_END));
        match (start, end) {
            (Some(start), Some(e)) if start == s && s < e && e < image.n && e - s < LARGEST => {
                Ok(Partition { image, s, e })
            }
            _ => Err(none),
        }
    }

    /// The block of s+1..e that this LDA names, if it is one.
    pub fn block_of_lda(&self, lda: u32) -> Option<u32> {
        self.image.drive.lbn_of_lda(lda).filter(|&b| self.holds(b))
    }

    /// The block of s+1..e whose PDA this is, if there is one.
    pub fn block_of_pda(&self, pda: u32) -> Option<u32> {
        self.image.drive.lbn_of_pda(pda).filter(|&b| self.holds(b))
    }

    /// Whether b is in s+1..e.
    pub fn holds(&self, b: u32) -> bool {
        self.s < b && b <= self.e
    }

    /// All of s+1..e.
    pub fn blocks(&self) -> std::ops::RangeInclusive<u32> {
        self.s + 1..=self.e
    }

    pub fn free_head(&self) -> Option<u32> {
        self.block_of_lda(self.image.data_pair(self.s, FREE_HEAD))
    }

    pub fn free_tail(&self) -> Option<u32> {
        self.block_of_lda(self.image.data_pair(self.s, FREE_TAIL))
    }

    pub fn number_free(&self) -> u32 {
        self.image.data_pair(self.s, NUMBER_FREE)
    }
}
