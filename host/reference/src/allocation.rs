//! Taking blocks from the front of the free chain, as create and append do.

use crate::address::NIL;
use crate::answer::Refusal;
use crate::image::{Partition, FREE_HEAD, NUMBER_FREE};
use crate::record::Record;

/// The first `needs` free blocks and the new first free one; number 8 is judged here.
pub fn first_free(partition: &Partition, needs: u32) -> Result<Vec<u32>, Refusal> {
    Refusal::unless(partition.number_free() > needs, 8)?;
    let next = |&b: &u32| partition.block_of_pda(partition.image.next(b));
    let chain = std::iter::successors(partition.free_head(), next);
    Ok(chain.take(needs as usize + 1).collect())
}

/// The last two stores of an allocation: the new first free block and the PIB.
pub fn store_allocation(partition: &Partition, free: &[u32], stores: &mut Vec<(u32, Record)>) {
    let (image, s) = (&partition.image, partition.s);
    let taken = free.len() as u32 - 1;
    let first = free[free.len() - 1];
    let mut record = Record::of(image, first);
    record.set_previous(NIL);
    record.set_filler(first);
    stores.push((first, record));
    let mut pib = Record::of(image, s);
    pib.set_lda(FREE_HEAD, first);
    pib.set_data_pair(NUMBER_FREE, partition.number_free() - taken);
    stores.push((s, pib));
}
