//! The call repair: relinks every file by its index, clears unused entries of last pointer blocks and of
//! -2 and -3, and chains all unowned blocks in ascending order. Links in the image are not read.

use crate::address::NIL;
use crate::answer::{Answer, Refusal};
use crate::file::well_formed;
use crate::image::{Partition, FREE_HEAD, FREE_TAIL, NUMBER_FREE};
use crate::index::ENTRIES;
use crate::plan::Plan;
use crate::record::Record;
use crate::sound::{survey, Survey};

/// What repair makes of one block of s+1..e.
#[derive(Clone, Copy)]
struct Relinked {
    next: u32,
    previous: u32,
    /// Entries from here on become nil: 128 but in a last pointer block, -2 or -3.
    used_entries: u32,
}

pub fn plan_repair(image: &[u8], drive: u32, s: u32) -> Plan {
    let planned = || {
        let partition = Partition::named(image, drive, s)?;
        let survey = survey(&partition)?;
        let free: Vec<u32> = partition.blocks().filter(|&b| !survey.owns(&partition, b)).collect();
        Refusal::unless(!free.is_empty(), 9)?;
        let relinked = relink(&partition, &survey, &free);
        let store = |b| (b, repaired(&partition, b, relinked[(b - s) as usize], &survey, free[0]));
        let pib = (s, repaired_pib(&partition, &free));
        Ok(Plan::done(partition.blocks().map(store).chain([pib]), None, 0))
    };
    Plan::settle(planned())
}

/// The new links of every block, at place b-s.
fn relink(partition: &Partition, survey: &Survey, free: &[u32]) -> Vec<Relinked> {
    let untouched = Relinked { next: NIL, previous: NIL, used_entries: ENTRIES };
    let mut relinked = vec![untouched; survey.owned.len()];
    link(partition, free, &mut relinked);
    for file in &survey.files {
        let mut blocks = Vec::with_capacity(file.blocks_in_use() as usize);
        well_formed(partition, file.f, |b| blocks.push(b));
        link(partition, &blocks, &mut relinked);
        for (relative, used) in file.last_holders() {
            let b = file.block(partition, relative);
            relinked[(b - partition.s) as usize].used_entries = used;
        }
    }
    relinked
}

/// Links these blocks both ways in this order.
fn link(partition: &Partition, blocks: &[u32], relinked: &mut [Relinked]) {
    for pair in blocks.windows(2) {
        relinked[(pair[0] - partition.s) as usize].next = partition.image.drive.pda(pair[1]);
        relinked[(pair[1] - partition.s) as usize].previous = partition.image.drive.pda(pair[0]);
    }
}

fn repaired(
    partition: &Partition,
    b: u32,
    new: Relinked,
    survey: &Survey,
    first_free: u32,
) -> Record {
    let mut record = Record::of(&partition.image, b);
    record.set_next(new.next);
    record.set_previous(new.previous);
    record.clear_entries(new.used_entries);
    if !survey.owns(partition, b) {
        record.set_serial(0);
        record.set_filler(first_free);
    }
    record
}

fn repaired_pib(partition: &Partition, free: &[u32]) -> Record {
    let mut pib = Record::of(&partition.image, partition.s);
    pib.set_lda(FREE_HEAD, free[0]);
    pib.set_lda(FREE_TAIL, free[free.len() - 1]);
    pib.set_data_pair(NUMBER_FREE, free.len() as u32);
    pib
}

pub fn repair(image: &mut [u8], drive: u32, s: u32, limit: u32) -> Answer {
    plan_repair(image, drive, s).apply(image, limit)
}
