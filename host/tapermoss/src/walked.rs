//! A tree as it is told: every entry with the path that leads back to it, or why none does, and what a dangling one holds.

use crate::directories::Directories;
use crate::held::Held;
use perq::{Refusal, Row, Rule, Tree, What, JOINT};
use std::collections::{HashMap, HashSet};

/// Why no path leads to an entry.
#[derive(Clone, Copy, Debug, PartialEq, Eq)]
pub enum NoPath {
    Earlier,
    Joint,
    Above,
}

impl NoPath {
    pub fn words(self) -> &'static str {
        match self {
            NoPath::Earlier => "an earlier entry has this name",
            NoPath::Joint => "'>' in the name",
            NoPath::Above => "none leads to its directory",
        }
    }
}

/// An entry.
pub struct Met {
    pub row: Row,
    pub no_path: Option<NoPath>,
    /// Of a dangling one.
    pub held: Option<Held>,
}

impl Met {
    /// The path that leads to it.
    pub fn path(&self) -> Option<&[u8]> {
        self.no_path.is_none().then_some(&self.row.path)
    }
}

/// The entries of a tree, or the first of them.
pub struct Walked {
    pub entries: Vec<Met>,
    pub complete: bool,
    /// How many valid entries of the directories that were looked into the rule does not select.
    pub passed_over: u32,
}

impl Walked {
    pub fn of(directories: &Directories, root: u32, tree: Tree) -> Result<Walked, Refusal> {
        let Tree { rows, complete } = tree;
        let mut read = Read { directories, known: HashMap::new() };
        if let Rule::Weights(_) = directories.rule {
            read.looked_into(root, &rows, complete)?;
        }
        let mut walk = Walk { above: (root, true), within: Vec::new() };
        let meet = |row| walk.meet(row, &mut read);
        let entries = rows.into_iter().map(meet).collect::<Result<Vec<Met>, Refusal>>()?;
        let passed_over = read.known.values().map(|directory| directory.passed_over).sum();
        Ok(Walked { entries, complete, passed_over })
    }

    /// What is said of the entries that were passed over.
    pub fn remark(passed_over: u32) -> Option<String> {
        let told = match passed_over {
            0 => return None,
            1 => "1 valid entry of these directories stands in a block that the rule does not select, and was passed over".to_string(),
            _ => format!("{passed_over} valid entries of these directories stand in blocks that the rule does not select, and were passed over"),
        };
        Some(told)
    }
}

/// A directory that the walk is in.
struct Within {
    f: u32,
    has_path: bool,
    /// The names that were met in it, as capitals.
    names: HashSet<Vec<u8>>,
    /// How many entries of it were met.
    met: usize,
}

/// Where the rows have come to. Those of a directory follow the row that names it.
struct Walk {
    /// The file that the last row names, and whether a path leads to it; the root before the first.
    above: (u32, bool),
    within: Vec<Within>,
}

impl Walk {
    fn meet(&mut self, row: Row, read: &mut Read) -> Result<Met, Refusal> {
        let level = row.level as usize;
        self.within.truncate(level);
        if self.within.len() < level {
            let (f, has_path) = self.above;
            self.within.push(Within { f, has_path, names: HashSet::new(), met: 0 });
        }
        let within = &mut self.within[level - 1];
        let is_first = within.names.insert(row.name.to_ascii_uppercase());
        let no_path = if !is_first {
            Some(NoPath::Earlier)
        } else if row.name.contains(&JOINT) {
            Some(NoPath::Joint)
        } else {
            (!within.has_path).then_some(NoPath::Above)
        };
        let held = match row.target {
            Some(f) => {
                self.above = (f, no_path.is_none());
                None
            }
            None => read.held(within.f, within.met)?,
        };
        within.met += 1;
        Ok(Met { row, no_path, held })
    }
}

/// What the blocks of a directory have.
struct Directory {
    /// The addresses of the entries that are taken.
    addresses: Vec<u32>,
    passed_over: u32,
}

/// The directories whose blocks were read.
struct Read<'a> {
    directories: &'a Directories<'a>,
    known: HashMap<u32, Directory>,
}

impl Read<'_> {
    fn of(&mut self, f: u32) -> Result<&Directory, Refusal> {
        if !self.known.contains_key(&f) {
            let entries = self.directories.entries(f)?;
            let rule = &self.directories.rule;
            let taken = entries.iter().filter(|entry| entry.is_selected(rule));
            let addresses: Vec<u32> = taken.map(|entry| entry.lda).collect();
            let passed_over = (entries.len() - addresses.len()) as u32;
            self.known.insert(f, Directory { addresses, passed_over });
        }
        Ok(&self.known[&f])
    }

    /// Reads every directory that a walk has looked into. One in the last row of a tree that goes on is not among them.
    fn looked_into(&mut self, root: u32, rows: &[Row], complete: bool) -> Result<(), Refusal> {
        self.of(root)?;
        let until = if complete { rows.len() } else { rows.len().saturating_sub(1) };
        let directories = rows[..until].iter().filter(|row| row.what == What::Directory);
        directories.filter_map(|row| row.target).try_for_each(|f| self.of(f).map(|_| ()))
    }

    /// What an entry of a directory holds, the taken ones counted from 0.
    fn held(&mut self, f: u32, number: usize) -> Result<Option<Held>, Refusal> {
        let directories = self.directories;
        let lda = self.of(f)?.addresses.get(number).copied();
        Ok(lda.map(|lda| Held::of(directories, lda)))
    }
}
