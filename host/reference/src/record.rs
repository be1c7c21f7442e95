//! One whole record being planned: a copy of the unchanged one with words changed.

use crate::address::{Drive, NIL};
use crate::image::{pair_at, Image};
use crate::image::{DATA, FILLER, HEADER, NEXT, PREVIOUS, RECORD, RELATIVE, SERIAL};

#[derive(Clone, Copy)]
pub struct Record {
    drive: Drive,
    bytes: [u8; RECORD],
}

impl Record {
    /// The record of block b as it stands in the image.
    pub fn of(image: &Image, b: u32) -> Record {
        let mut bytes = [0; RECORD];
        bytes.copy_from_slice(image.record(b));
        Record { drive: image.drive, bytes }
    }

    pub fn bytes(self) -> [u8; RECORD] {
        self.bytes
    }

    fn set_word(&mut self, word: usize, value: u16) {
        self.bytes[2 * word..2 * word + 2].copy_from_slice(&value.to_le_bytes());
    }

    fn set_pair(&mut self, word: usize, value: u32) {
        self.bytes[2 * word..2 * word + 4].copy_from_slice(&value.to_le_bytes());
    }

    pub fn set_serial(&mut self, pda: u32) {
        self.set_pair(SERIAL, pda);
    }

    pub fn set_relative(&mut self, relative: i32) {
        self.set_word(RELATIVE, relative as u16);
    }

    /// The filler becomes the low 16 bits of an LBN.
    pub fn set_filler(&mut self, lbn: u32) {
        self.set_word(FILLER, lbn as u16);
    }

    pub fn set_next(&mut self, pda: u32) {
        self.set_pair(NEXT, pda);
    }

    pub fn set_previous(&mut self, pda: u32) {
        self.set_pair(PREVIOUS, pda);
    }

    pub fn set_data_word(&mut self, word: usize, value: u16) {
        self.set_word(HEADER / 2 + word, value);
    }

    pub fn set_data_pair(&mut self, word: usize, value: u32) {
        self.set_pair(HEADER / 2 + word, value);
    }

    /// The LDA at this data word comes to name block b. Calls write every LDA by this, so that one that
    /// names b already is kept with its reserved bits. In cleared data there is none to keep.
    pub fn set_lda(&mut self, word: usize, b: u32) {
        let old = pair_at(&self.bytes, HEADER / 2 + word);
        self.set_data_pair(word, self.drive.kept_or_clean_lda(old, b));
    }

    /// The data from its beginning on becomes these bytes, at most 512.
    pub fn set_data(&mut self, bytes: &[u8]) {
        self.bytes[HEADER..HEADER + bytes.len()].copy_from_slice(bytes);
    }

    pub fn clear_data(&mut self) {
        self.set_data(&[0; DATA]);
    }

    /// The entries of a pointer block from `used` on become nil.
    pub fn clear_entries(&mut self, used: u32) {
        for entry in used as usize..DATA / 4 {
            self.set_data_pair(2 * entry, NIL);
        }
    }
}
