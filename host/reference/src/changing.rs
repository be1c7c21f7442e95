//! The changing calls create, write (replace; append is in append.rs), describe and destroy.
//! Numbers are judged in the order 1, 2, 3, 12, 4 to 8; `file_at` gives only 6 here, for no candidate of
//! a sound partition is malformed.

use crate::address::NIL;
use crate::allocation::{first_free, store_allocation};
use crate::answer::{Answer, Refusal};
use crate::append::append;
use crate::file::{file_at, File};
use crate::file::{
    BLOCKS_IN_USE, KIND, LAST_ADDRESS, LAST_BLOCK, LAST_NEGATIVE, LAST_NEGATIVE_ADDRESS,
};
use crate::image::{Partition, DATA, FREE_TAIL, NUMBER_FREE};
use crate::index::{FIB, LAST_RELATIVE};
use crate::name::describable;
use crate::plan::Plan;
use crate::record::Record;
use crate::sound::sound;

/// A sound partition; numbers 1 to 5 are judged here, 3 and describe's 12 by what the caller found of
/// its buffer.
fn judged(
    image: &[u8],
    drive: u32,
    s: u32,
    buffer: Result<(), Refusal>,
) -> Result<Partition<'_>, Refusal> {
    let partition = Partition::named(image, drive, s)?;
    buffer?;
    sound(&partition)?;
    Ok(partition)
}

pub fn plan_create(image: &[u8], drive: u32, s: u32, kind: u16) -> Plan {
    let planned = || {
        let partition = judged(image, drive, s, Ok(()))?;
        let free = first_free(&partition, 1)?;
        let f = free[0];
        let mut stores = vec![(f, empty_file(&partition, f, kind))];
        store_allocation(&partition, &free, &mut stores);
        Ok(Plan::done(stores, Some(f), f))
    };
    Plan::settle(planned())
}

/// The FIB of a file with L = -1.
fn empty_file(partition: &Partition, f: u32, kind: u16) -> Record {
    let mut fib = Record::of(&partition.image, f);
    fib.set_serial(partition.image.drive.pda(f));
    fib.set_relative(FIB);
    fib.set_next(NIL);
    fib.set_previous(NIL);
    fib.clear_data();
    fib.set_data_word(KIND, kind);
    fib.set_data_word(BLOCKS_IN_USE, 1);
    fib.set_data_word(LAST_BLOCK, -1_i16 as u16);
    fib.set_lda(LAST_ADDRESS, f);
    fib.set_data_word(LAST_NEGATIVE, FIB as u16);
    fib.set_lda(LAST_NEGATIVE_ADDRESS, f);
    fib
}

pub fn plan_write(image: &[u8], drive: u32, s: u32, f: u32, r: u32, buffer: &[u8]) -> Plan {
    let planned = || {
        let partition = judged(image, drive, s, Refusal::unless(buffer.len() == DATA, 3))?;
        let file = file_at(&partition, f)?;
        Refusal::unless(r <= LAST_RELATIVE && r <= file.length(), 7)?;
        if r == file.length() {
            return append(&partition, &file, buffer);
        }
        let b = file.data_block(&partition, r);
        let mut record = Record::of(&partition.image, b);
        record.set_data(buffer);
        Ok(Plan::done(vec![(b, record)], Some(b), 0))
    };
    Plan::settle(planned())
}

pub fn plan_describe(image: &[u8], drive: u32, s: u32, f: u32, buffer: &[u8]) -> Plan {
    let planned = || {
        let partition = judged(image, drive, s, describable(buffer))?;
        file_at(&partition, f)?;
        let mut fib = Record::of(&partition.image, f);
        fib.set_data(buffer);
        Ok(Plan::done(vec![(f, fib)], Some(f), 0))
    };
    Plan::settle(planned())
}

pub fn plan_destroy(image: &[u8], drive: u32, s: u32, f: u32) -> Plan {
    let planned = || {
        let partition = judged(image, drive, s, Ok(()))?;
        let file = file_at(&partition, f)?;
        let mut stores = destroyed(&partition, &file);
        let tail = partition.free_tail().expect("a sound partition has a free tail");
        let most_negative = file.most_negative_block(&partition);
        let mut record = Record::of(&partition.image, tail);
        record.set_next(partition.image.drive.pda(most_negative));
        stores.push((tail, record));
        let last = file.last_data_block(&partition);
        let mut pib = Record::of(&partition.image, s);
        pib.set_lda(FREE_TAIL, last);
        pib.set_data_pair(NUMBER_FREE, partition.number_free() + file.blocks_in_use());
        stores.push((s, pib));
        Ok(Plan::done(stores, Some(f), 0))
    };
    Plan::settle(planned())
}

/// The file's own stores in destroy: the FIB, the most negative block if P >= 1, the last if L >= 0.
fn destroyed(partition: &Partition, file: &File) -> Vec<(u32, Record)> {
    let image = &partition.image;
    let head = partition.free_head().expect("a sound partition has a free head");
    let tail = partition.free_tail().expect("a sound partition has a free tail");
    let most_negative = file.most_negative_block(partition);
    let last = file.last_data_block(partition);
    let mut blocks = vec![file.f];
    blocks.extend((most_negative != file.f).then_some(most_negative));
    blocks.extend((last != file.f).then_some(last));
    let store = |b: u32| {
        let mut record = Record::of(image, b);
        record.set_serial(0);
        if b == most_negative {
            record.set_previous(image.drive.pda(tail));
        }
        if b == most_negative || b == last {
            record.set_filler(head);
        }
        (b, record)
    };
    blocks.into_iter().map(store).collect()
}

/// a = the LBN of the new file.
pub fn create(image: &mut [u8], drive: u32, s: u32, kind: u16, limit: u32) -> Answer {
    plan_create(image, drive, s, kind).apply(image, limit)
}

pub fn write(
    image: &mut [u8],
    drive: u32,
    s: u32,
    f: u32,
    r: u32,
    buffer: &[u8],
    limit: u32,
) -> Answer {
    plan_write(image, drive, s, f, r, buffer).apply(image, limit)
}

pub fn describe(image: &mut [u8], drive: u32, s: u32, f: u32, buffer: &[u8], limit: u32) -> Answer {
    plan_describe(image, drive, s, f, buffer).apply(image, limit)
}

pub fn destroy(image: &mut [u8], drive: u32, s: u32, f: u32, limit: u32) -> Answer {
    plan_destroy(image, drive, s, f).apply(image, limit)
}
