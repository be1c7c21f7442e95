//! The entries of a directory, as they stand in its blocks: the names and addresses that the library's answers leave out.

use crate::directories::Directories;
use perq::{Refusal, Rule, DATA};

/// The bytes of an entry: a word of flags, the address in bytes 2 to 5, the name's length in byte 6, and the name.
const ENTRY: usize = 32;
const PLACES: usize = DATA / ENTRY;
const LONGEST: usize = 25;
/// Block r is selected by a name if r mod 31 is the name's hash.
const HASHES: u32 = 31;

/// A valid entry.
pub struct Entry {
    /// The block of the directory that it stands in, from 0, and its place there, from 0 to 15.
    pub block: u32,
    pub place: usize,
    /// The two words that should be the LDA of a file.
    pub lda: u32,
    pub name: Vec<u8>,
}

impl Entry {
    /// The entry in a place of a directory, the places counted over its blocks; none if it is not valid.
    fn at(number: usize, bytes: &[u8]) -> Option<Entry> {
        let length = usize::from(bytes[6]);
        let is_valid = bytes[0] % 2 == 1 && (1..=LONGEST).contains(&length);
        is_valid.then(|| Entry {
            block: (number / PLACES) as u32,
            place: number % PLACES,
            lda: u32::from_le_bytes([bytes[2], bytes[3], bytes[4], bytes[5]]),
            name: bytes[7..][..length].to_vec(),
        })
    }

    /// Whether it stands in a block that its name selects; if the rule is not known, every block is one.
    pub fn is_selected(&self, rule: &Rule) -> bool {
        rule.hash(&self.name).is_none_or(|hash| self.block % HASHES == u32::from(hash))
    }
}

impl Directories<'_> {
    /// The valid entries of a directory by block and place, those that the rule does not select too.
    pub fn entries(&self, f: u32) -> Result<Vec<Entry>, Refusal> {
        let bytes = perq::whole_file(self.image, self.drive, self.s, f)?;
        let entries = bytes.chunks_exact(ENTRY).enumerate();
        Ok(entries.filter_map(|(number, bytes)| Entry::at(number, bytes)).collect())
    }
}
