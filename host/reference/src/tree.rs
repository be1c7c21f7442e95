//! The call tree: one row for each entry taken, depth first from the root.
//! Directories may name each other in circles; the level ends that, and the rows that fit end the walk.

use crate::answer::{settle, Answer, Refusal};
use crate::directory::{entries, root, target, Entry, Rule, Target, DEEPEST};
use crate::file::File;
use crate::image::Partition;
use std::collections::HashMap;
use std::rc::Rc;

/// Bytes of a row: LBN (4), level, what, length of the name, name (25).
pub const ROW: usize = 32;

/// What kept the walk from its end.
enum Stop {
    /// No row was left for the next entry.
    Full,
    /// A directory of the tenth level was met.
    Deep(File),
}

/// A walk under way. What was looked up once is kept, so that a directory or file named many times
/// is looked through once.
struct Walk<'a> {
    partition: Partition<'a>,
    rule: Rule<'a>,
    rows: Vec<[u8; ROW]>,
    /// How many rows fit.
    room: usize,
    /// The entries of a directory, by its FIB.
    listings: HashMap<u32, Rc<[Entry<'a>]>>,
    /// What an address names.
    targets: HashMap<u32, Target>,
}

impl<'a> Walk<'a> {
    fn listing(&mut self, directory: File) -> Rc<[Entry<'a>]> {
        let (partition, rule) = (self.partition, self.rule);
        let listed = || entries(partition, rule, directory).collect();
        self.listings.entry(directory.f).or_insert_with(listed).clone()
    }

    fn target(&mut self, lda: u32) -> Target {
        *self.targets.entry(lda).or_insert_with(|| target(&self.partition, lda))
    }

    /// The rows of a directory of this level and of what is below it.
    fn enter(&mut self, directory: File, level: u32) -> Result<(), Stop> {
        if level > DEEPEST {
            return Err(Stop::Deep(directory));
        }
        for entry in self.listing(directory).iter() {
            if self.rows.len() == self.room {
                return Err(Stop::Full);
            }
            let target = self.target(entry.lda);
            self.rows.push(row(entry, level, target));
            if let Target::Directory(below) = target {
                self.enter(below, level + 1)?;
            }
        }
        Ok(())
    }
}

/// The row of an entry that stands in a directory of this level.
fn row(entry: &Entry, level: u32, target: Target) -> [u8; ROW] {
    let (lbn, what) = match target {
        Target::Other(file) => (file.f, 0),
        Target::Directory(file) => (file.f, 1),
        Target::Dangling => (0, 2),
    };
    let mut row = [0; ROW];
    row[..4].copy_from_slice(&lbn.to_le_bytes());
    row[4..7].copy_from_slice(&[level as u8, what, entry.name.len() as u8]);
    row[7..][..entry.name.len()].copy_from_slice(entry.name);
    row
}

/// a = the rows filled, b = 1 if no row was left for the next entry.
pub fn tree(image: &[u8], drive: u32, s: u32, rule: &[u8], rows: &mut [u8]) -> Answer {
    let mut listed = || {
        let partition = Partition::named(image, drive, s)?;
        let rule = Rule::lent(rule)?;
        Refusal::unless(rows.len() % ROW == 0, 3)?;
        let root = root(&partition)?;
        let room = rows.len() / ROW;
        let (listings, targets) = (HashMap::new(), HashMap::new());
        let mut walk = Walk { partition, rule, rows: Vec::new(), room, listings, targets };
        let full = match walk.enter(root, 1) {
            Ok(()) => 0,
            Err(Stop::Full) => 1,
            Err(Stop::Deep(directory)) => return Err(Refusal::too_deep(directory.f)),
        };
        for (place, row) in rows.chunks_exact_mut(ROW).zip(&walk.rows) {
            place.copy_from_slice(row);
        }
        Ok(Answer::done(walk.rows.len() as u32, full, 0))
    };
    settle(listed())
}
