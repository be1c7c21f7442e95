//! A changing call under every limit, and what of it the stores tell.

use crate::both::Both;
use crate::call::{on_library, Call, Name};
use perq::RECORD;
use reference::{Answer, Plan};

/// The reference's plan of a changing call.
pub fn plan(call: &Call, image: &[u8]) -> Plan {
    let Call { name, drive, s, f, r, number, ref buffer, .. } = *call;
    match name {
        Name::Create => reference::plan_create(image, drive, s, number as u16),
        Name::Write => reference::plan_write(image, drive, s, f, r, buffer),
        Name::Describe => reference::plan_describe(image, drive, s, f, buffer),
        Name::Destroy => reference::plan_destroy(image, drive, s, f),
        Name::Repair => reference::plan_repair(image, drive, s),
        other => panic!("{other:?} does not change"),
    }
}

/// Makes the call with every limit from 0 to one more than its stores, each time on the image as it is, and at last
/// without a limit. Answers the answer of the whole call.
pub fn every_limit(both: &mut Both, call: &Call) -> Answer {
    let stores = plan(call, both.image()).stores.len() as u32;
    for limit in 0..=stores + 1 {
        let answer = both.clone().call(&call.clone().with_limit(limit));
        assert_eq!(answer.made, stores.min(limit), "stores made of {:?} under {limit}", call.name);
    }
    both.call(&call.clone().with_limit(u32::MAX))
}

/// The blocks that the library stores, one by one, in their order; the image is left as after the whole call.
pub fn stored(image: &mut Vec<u8>, call: &Call) -> Vec<u32> {
    let mut blocks = Vec::new();
    let mut last = image.clone();
    for limit in 1.. {
        let mut next = image.clone();
        let mut buffer = call.buffer.clone();
        let answer = on_library(&call.clone().with_limit(limit), &mut next, &[], &mut buffer);
        if answer.made < limit {
            break;
        }
        blocks.extend(changed_blocks(&last, &next));
        last = next;
    }
    *image = last;
    blocks
}

/// The blocks in which two images differ.
pub fn changed_blocks(before: &[u8], after: &[u8]) -> Vec<u32> {
    let records = before.chunks(RECORD).zip(after.chunks(RECORD));
    records.enumerate().filter(|(_, (one, other))| one != other).map(|(b, _)| b as u32).collect()
}
