//! Directory files: the hash rule, the entries it takes, what they name, and the call look up.
//! The call tree, which follows every entry, is in tree.rs.

use crate::answer::{settle, Answer, Refusal};
use crate::file::{file_at, File};
use crate::image::{Partition, ROOT_DIRECTORY};

/// The last level whose directories are looked into; the root is level 1.
pub const DEEPEST: u32 = 9;
/// Characters of the longest name.
pub const LONGEST: usize = 25;
/// A name's hash is below this, and selects every block that leaves it as remainder.
pub const HASHES: u32 = 31;
/// What joins the names of a path.
pub const JOINT: u8 = b'>';

/// Bytes of an entry: 16 words, 16 entries a block.
pub const ENTRY: usize = 32;
/// Bytes of an entry from which its parts begin; bit 0 of the first byte says that it is valid.
pub const ADDRESS: usize = 2;
pub const LENGTH: usize = 6;
pub const NAME: usize = 7;

/// The data word of a FIB that tells a directory, and what it is there.
pub const SORT: usize = 8;
pub const DIRECTORY: u16 = 3;

/// The hash rule: 26 weights, or none where it is not known.
#[derive(Clone, Copy, Debug)]
pub struct Rule<'a>(Option<&'a [u8; LONGEST + 1]>);

impl<'a> Rule<'a> {
    /// Number 3 is judged here.
    pub fn lent(bytes: &'a [u8]) -> Result<Rule<'a>, Refusal> {
        let weights = bytes.try_into().ok();
        Refusal::unless(bytes.is_empty() || weights.is_some(), 3)?;
        Ok(Rule(weights))
    }

    /// The hash of a name of at most 25 characters; none if the rule is not known.
    pub fn hash(&self, name: &[u8]) -> Option<u32> {
        let characters = name.iter().map(|c| u32::from(c.to_ascii_uppercase()));
        let numbers = std::iter::once(name.len() as u32).chain(characters);
        let weighed = self.0?.iter().zip(numbers).map(|(&w, number)| u32::from(w) * number);
        Some(weighed.sum::<u32>() % HASHES)
    }

    /// Whether a name selects block r of a directory.
    pub fn selects(&self, name: &[u8], r: u32) -> bool {
        self.hash(name).is_none_or(|hash| r % HASHES == hash)
    }
}

/// An entry that is taken.
#[derive(Clone, Copy, Debug)]
pub struct Entry<'a> {
    /// As it stands on the disk, 1 to 25 characters.
    pub name: &'a [u8],
    /// What stands where the LDA of the target's FIB should be.
    pub lda: u32,
}

/// The entry in these 32 bytes of block r of a directory, if it is taken.
fn taken<'a>(rule: Rule, r: u32, bytes: &'a [u8]) -> Option<Entry<'a>> {
    let length = usize::from(bytes[LENGTH]);
    let name = bytes[NAME..].get(..length)?;
    let lda = bytes[ADDRESS..LENGTH].try_into().map(u32::from_le_bytes).ok()?;
    let valid = bytes[0] & 1 == 1;
    (valid && length >= 1 && rule.selects(name, r)).then_some(Entry { name, lda })
}

/// The entries taken from a directory, by block and then by their place in it.
pub fn entries<'a>(
    partition: Partition<'a>,
    rule: Rule<'a>,
    directory: File,
) -> impl Iterator<Item = Entry<'a>> {
    (0..directory.length()).flat_map(move |r| {
        let data = partition.image.data(directory.data_block(&partition, r));
        data.chunks_exact(ENTRY).filter_map(move |bytes| taken(rule, r, bytes))
    })
}

/// What an address names.
#[derive(Clone, Copy, Debug, PartialEq, Eq)]
pub enum Target {
    Directory(File),
    /// A file that is no directory.
    Other(File),
    /// No file.
    Dangling,
}

/// What is named by what should be the LDA of a FIB.
pub fn target(partition: &Partition, lda: u32) -> Target {
    let file = partition.block_of_lda(lda).and_then(|f| file_at(partition, f).ok());
    match file {
        None => Target::Dangling,
        Some(file) if partition.image.data_word(file.f, SORT) == DIRECTORY => {
            Target::Directory(file)
        }
        Some(file) => Target::Other(file),
    }
}

/// The root, which need not have a directory's word 8; number 6 is judged here.
pub fn root(partition: &Partition) -> Result<File, Refusal> {
    match target(partition, partition.image.data_pair(partition.s, ROOT_DIRECTORY)) {
        Target::Directory(file) | Target::Other(file) => Ok(file),
        Target::Dangling => Err(Refusal { number: 6, block: 0 }),
    }
}

/// What the path names from the root on, none if it is not there; number 11 is judged here.
fn follow(
    partition: &Partition,
    rule: Rule,
    root: File,
    path: &[u8],
) -> Result<Option<Target>, Refusal> {
    let mut at = Target::Directory(root);
    let names = path.split(|&c| c == JOINT).filter(|_| !path.is_empty());
    for (level, name) in (1..).zip(names) {
        let Target::Directory(directory) = at else {
            return Ok(None);
        };
        if level > DEEPEST {
            return Err(Refusal::too_deep(directory.f));
        }
        let same = |entry: &Entry| entry.name.eq_ignore_ascii_case(name);
        let Some(entry) = entries(*partition, rule, directory).find(same) else {
            return Ok(None);
        };
        at = target(partition, entry.lda);
    }
    Ok(Some(at))
}

/// Done: a = the file's LBN, b = 0; or a = 0, b = 1 where the path ends at an entry that dangles.
pub fn look_up(image: &[u8], drive: u32, s: u32, rule: &[u8], path: &[u8]) -> Answer {
    let found = || {
        let partition = Partition::named(image, drive, s)?;
        let rule = Rule::lent(rule)?;
        let root = root(&partition)?;
        Ok(match follow(&partition, rule, root, path)? {
            None => Answer::absent(),
            Some(Target::Dangling) => Answer::done(0, 1, 0),
            Some(Target::Directory(file) | Target::Other(file)) => Answer::done(file.f, 0, 0),
        })
    };
    settle(found())
}
