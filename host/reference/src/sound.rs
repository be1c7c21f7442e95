//! Which blocks are owned, whether the partition is sound, and the call check.

use crate::address::NIL;
use crate::answer::{settle, Answer, Refusal};
use crate::file::{candidate, well_formed, File};
use crate::image::{Image, Partition};
use crate::index::{entry_word, ENTRIES};

/// The files of a partition that has no malformed candidate.
pub struct Survey {
    pub files: Vec<File>,
    /// Whether block b is owned, at place b-s; the PIB, at place 0, is not.
    pub owned: Vec<bool>,
    pub owned_blocks: u32,
    /// How many blocks of s+1..e are not owned.
    pub unowned_blocks: u32,
    /// Whether each file is linked as it should be.
    linked: bool,
}

impl Survey {
    pub fn owns(&self, partition: &Partition, b: u32) -> bool {
        self.owned[(b - partition.s) as usize]
    }
}

/// A chain of blocks being checked: linked both ways, nil at the ends.
struct Chain<'a> {
    image: Image<'a>,
    end: Option<u32>,
    linked: bool,
}

impl<'a> Chain<'a> {
    fn new(image: Image<'a>) -> Chain<'a> {
        Chain { image, end: None, linked: true }
    }

    fn then(&mut self, b: u32) {
        let image = &self.image;
        let forward = self.end.is_none_or(|end| image.names(image.next(end), Some(b)));
        let backward = image.names(image.previous(b), self.end);
        self.linked &= forward && backward;
        self.end = Some(b);
    }

    fn ends(&self) -> bool {
        self.linked && self.end.is_none_or(|end| self.image.names(self.image.next(end), None))
    }
}

/// Looks at every header, and at the index of every candidate. Number 4 is judged here.
pub fn survey(partition: &Partition) -> Result<Survey, Refusal> {
    let mut files = Vec::new();
    let mut owned = vec![false; (partition.e - partition.s + 1) as usize];
    let mut owned_blocks = 0;
    let mut linked = true;
    for f in partition.blocks().filter(|&f| candidate(partition, f)) {
        let mut chain = Chain::new(partition.image);
        let file = well_formed(partition, f, |b| {
            owned[(b - partition.s) as usize] = true;
            chain.then(b);
        });
        let file = file.ok_or(Refusal::malformed(f))?;
        linked &= chain.ends();
        owned_blocks += file.blocks_in_use();
        files.push(file);
    }
    let unowned_blocks = partition.e - partition.s - owned_blocks;
    Ok(Survey { files, owned, owned_blocks, unowned_blocks, linked })
}

/// Whether the unused entries of the file's last pointer block, and of -2 and -3, are nil.
fn unused_entries_nil(partition: &Partition, file: &File) -> bool {
    file.last_holders().all(|(relative, used)| {
        let b = file.block(partition, relative);
        let nil = |entry| partition.image.data_pair(b, entry_word(entry)) == NIL;
        (used..ENTRIES).all(nil)
    })
}

/// Whether the chain from FreeHead visits every unowned block once and agrees with the PIB. The walk
/// ends: no block comes twice, for its previous link would have to name two blocks, or one and nil.
fn free_chain_good(partition: &Partition, survey: &Survey) -> bool {
    let image = &partition.image;
    let mut visited = 0;
    let mut end = None;
    let mut at = partition.free_head();
    while let Some(b) = at {
        if survey.owns(partition, b) || !image.names(image.previous(b), end) {
            return false;
        }
        visited += 1;
        end = at;
        at = partition.block_of_pda(image.next(b));
    }
    end.is_some_and(|end| image.names(image.next(end), None))
        && partition.free_tail() == end
        && visited == survey.unowned_blocks
        && visited == partition.number_free()
}

/// The survey of a sound partition; numbers 4 and 5 are judged here.
pub fn sound(partition: &Partition) -> Result<Survey, Refusal> {
    let survey = survey(partition)?;
    let sound = survey.linked
        && survey.files.iter().all(|file| unused_entries_nil(partition, file))
        && free_chain_good(partition, &survey);
    Refusal::unless(sound, 5)?;
    Ok(survey)
}

/// a = files, b = owned blocks, c = free blocks.
pub fn check(image: &[u8], drive: u32, s: u32) -> Answer {
    let checked = || {
        let partition = Partition::named(image, drive, s)?;
        let survey = sound(&partition)?;
        Ok(Answer::done(survey.files.len() as u32, survey.owned_blocks, survey.unowned_blocks))
    };
    settle(checked())
}
