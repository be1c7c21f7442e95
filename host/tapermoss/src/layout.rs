//! Which partitions an image has. All commands have this one rule: the blocks that the device's table lists are
//! partitions, good or not; a good one that it does not list is one too if no block of it is another one's. One that shares
//! blocks with a listed one is most likely a copy in some file's data: it is mentioned, and not taken for one unless named.

use crate::fields::TABLE;
use crate::outcome::Outcome;
use crate::problem::Problem;
use crate::volume;
use perq::{Drive, Refusal, RECORD};
use serde_json::{json, Value};
use std::collections::BTreeSet;
use std::ops::Range;

/// A block at which a partition starts, or should.
#[derive(Clone, Copy, Debug)]
pub struct Place {
    pub s: u32,
    /// The last block, as the partition's own block has it; none where that is not good.
    pub last: Option<u32>,
    pub listed: bool,
    pub standing: Standing,
}

#[derive(Clone, Copy, Debug, PartialEq, Eq)]
pub enum Standing {
    /// Good, and no other's blocks are among its own.
    Good,
    /// The table lists it, or a person has named it, and it is not good.
    NotGood,
    /// Good, but it shares blocks with another one, and the table does not say which of the two it is.
    Shared { with: u32 },
    /// Good, but not listed, and it shares blocks with one that is.
    Overruled { by: u32 },
    /// Good, but not listed, and after a listed one that is not good, whose end is not known.
    Doubtful { of: u32 },
}

impl Place {
    /// Where the partition's bytes are in the image; none of one that is not good.
    pub fn bytes(&self) -> Range<usize> {
        match self.last {
            Some(last) => RECORD * self.s as usize..RECORD * (last as usize + 1),
            None => 0..0,
        }
    }

    /// What keeps it from being judged, if anything does.
    pub fn doubt(&self) -> Option<String> {
        let s = self.s;
        match self.standing {
            Standing::Good | Standing::Overruled { .. } => None,
            Standing::NotGood if self.listed => {
                Some(format!("the table lists block {s}, at which no good partition starts"))
            }
            Standing::NotGood => Some(format!("no good partition starts at block {s}")),
            Standing::Shared { with } => Some(format!(
                "the partitions at blocks {} and {} share blocks, and the table does not decide between them: --partition names one",
                s.min(with),
                s.max(with)
            )),
            Standing::Doubtful { of } => Some(format!(
                "the partition at block {s} is not listed and may lie in the blocks of that at block {of}, which is listed and not good: --partition names it"
            )),
        }
    }

    /// The same as what becomes of it.
    pub fn problem(&self) -> Option<Problem> {
        let told = self.doubt()?;
        Some(match self.standing {
            Standing::NotGood => Problem::refused(Refusal::Partition, &told),
            _ => Problem::new(Outcome::SetAside, told),
        })
    }

    /// The fields that tell where it is.
    pub fn as_json(&self) -> Value {
        let other = match self.standing {
            Standing::Shared { with: other } | Standing::Overruled { by: other } => Some(other),
            _ => None,
        };
        json!({"first": self.s, "last": self.last, "listed": self.listed, "shares_with": other})
    }

    fn shares_with(&self, other: &Place) -> bool {
        let (Some(last), Some(other_last)) = (self.last, other.last) else { return false };
        self.s != other.s && self.s <= other_last && other.s <= last
    }
}

/// All places of an image, ascending.
pub struct Layout(Vec<Place>);

impl Layout {
    pub fn of(image: &[u8], drive: Drive) -> Result<Layout, Refusal> {
        let good = volume::good(image, drive)?;
        let listed = volume::listed(image, drive);
        let mut blocks: Vec<u32> = good.iter().chain(&listed).copied().collect();
        blocks.sort_unstable();
        blocks.dedup();
        let mut places = Vec::with_capacity(blocks.len());
        for s in blocks {
            let last = volume::last(image, drive, s).ok();
            let standing = if last.is_some() { Standing::Good } else { Standing::NotGood };
            places.push(Place { s, last, listed: listed.contains(&s), standing });
        }
        Ok(Layout(settled(places)))
    }

    pub fn places(&self) -> impl Iterator<Item = &Place> {
        self.0.iter()
    }

    /// Those that a command without `--partition` is about.
    pub fn partitions(&self) -> impl Iterator<Item = &Place> {
        self.0.iter().filter(|place| !matches!(place.standing, Standing::Overruled { .. }))
    }

    /// Those that are only mentioned, each with the listed one that it shares blocks with.
    pub fn overruled(&self) -> impl Iterator<Item = (&Place, u32)> {
        self.0.iter().filter_map(|place| match place.standing {
            Standing::Overruled { by } => Some((place, by)),
            _ => None,
        })
    }

    /// How many files the partitions have, each counted once: of as many partitions as a table can list.
    pub fn files(&self, image: &[u8], drive: Drive) -> u32 {
        let partitions = self.partitions().take(TABLE);
        let files = partitions.flat_map(|place| volume::files_of(image, drive, place.s));
        files.collect::<BTreeSet<u32>>().len() as u32
    }

    /// The place that a person has named: what is not clear about it is that person's to know.
    pub fn named(&self, s: u32) -> Place {
        let unknown = Place { s, last: None, listed: false, standing: Standing::NotGood };
        let place = self.0.iter().find(|place| place.s == s).copied().unwrap_or(unknown);
        match place.standing {
            Standing::Shared { .. } | Standing::Doubtful { .. } => {
                Place { standing: Standing::Good, ..place }
            }
            _ => place,
        }
    }
}

/// What there is to say of an image without any partition.
pub fn none() -> Problem {
    Problem::refused(Refusal::Partition, "no good partition starts at any block")
}

/// The standings, once all places are known. A listed one goes before one that is not. Every block of an image may look like
/// a partition, so each place is held to the table's few, and then only to its neighbours.
fn settled(mut places: Vec<Place>) -> Vec<Place> {
    let listed: Vec<Place> = places.iter().filter(|place| place.listed).copied().collect();
    for place in &mut places {
        let other = listed.iter().find(|other| place.shares_with(other)).map(|other| other.s);
        let before = listed.iter().rev().find(|other| other.s < place.s);
        let lost = before.filter(|other| other.standing == Standing::NotGood);
        place.standing = match (other, place.listed, lost) {
            (Some(with), true, _) => Standing::Shared { with },
            (Some(by), false, _) => Standing::Overruled { by },
            (None, false, Some(lost)) => Standing::Doubtful { of: lost.s },
            (None, _, _) => place.standing,
        };
    }
    let apart = |place: &&mut Place| !place.listed && place.standing == Standing::Good;
    share(places.iter_mut().filter(apart).collect());
    places
}

/// Marks those that share blocks with another one. They are ascending: one that shares a block with any before it shares
/// one with that which reaches farthest.
fn share(mut places: Vec<&mut Place>) {
    let mut farthest = 0;
    for i in 1..places.len() {
        let (before, here) = places.split_at_mut(i);
        if before[farthest].shares_with(here[0]) {
            here[0].standing = Standing::Shared { with: before[farthest].s };
            if before[farthest].standing == Standing::Good {
                before[farthest].standing = Standing::Shared { with: here[0].s };
            }
        }
        if here[0].last > before[farthest].last {
            farthest = i;
        }
    }
}
