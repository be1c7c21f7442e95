//! A changing call as a plan: its answer and the list of its stores, made from the unchanged image.
//! Applying a plan under a limit makes the first so many stores.

use crate::answer::{Answer, Refusal};
use crate::image::RECORD;
use crate::record::Record;

#[derive(Clone, Debug, PartialEq, Eq)]
pub struct Plan {
    /// The answer of the whole call, made without a limit: `made` is the number of stores.
    pub answer: Answer,
    /// Block and whole record, in document 01's order; empty when refused.
    pub stores: Vec<(u32, [u8; RECORD])>,
    /// The place in `stores` of the deciding store; `stores.len()` if none decides (repair, refusals).
    pub deciding: usize,
}

impl Plan {
    /// A done call; `a` is its value, `deciding` the block of its deciding store.
    pub fn done(
        stores: impl IntoIterator<Item = (u32, Record)>,
        deciding: Option<u32>,
        a: u32,
    ) -> Plan {
        let stores: Vec<_> = stores.into_iter().map(|(b, record)| (b, record.bytes())).collect();
        let place = |block| stores.iter().position(|&(b, _)| b == block);
        let deciding = deciding.and_then(place).unwrap_or(stores.len());
        let answer = Answer { made: stores.len() as u32, ..Answer::done(a, 0, 0) };
        Plan { answer, stores, deciding }
    }

    pub fn settle(result: Result<Plan, Refusal>) -> Plan {
        let refused =
            |refusal| Plan { answer: Answer::from(refusal), stores: Vec::new(), deciding: 0 };
        result.unwrap_or_else(refused)
    }

    /// Makes the first `limit` stores in the image the plan was made from.
    pub fn apply(&self, image: &mut [u8], limit: u32) -> Answer {
        let made = self.stores.len().min(limit as usize);
        for (b, record) in &self.stores[..made] {
            image[RECORD * *b as usize..][..RECORD].copy_from_slice(record);
        }
        Answer { made: made as u32, ..self.answer }
    }
}
