//! The directories of a partition: what a path leads to, the tree below the root, and why there is none.

use crate::asked::Asked;
use crate::fields::{self, escaped_name, escaped_path as escaped, DIRECTORY, ROOT_DIRECTORY, SORT};
use crate::held::Held;
use crate::outcome::Outcome;
use crate::problem::Problem;
use perq::{Drive, Refusal, Rule, Target, Tree, Words, JOINT};

/// How many entries of a tree are looked at unless another number is asked for, and the most that can be asked for.
pub const ROWS: u32 = 65_536;
pub const MOST_ROWS: u32 = 1_048_576;

/// The directories of a partition, read by a rule.
#[derive(Clone, Copy)]
pub struct Directories<'a> {
    pub image: &'a [u8],
    pub drive: Drive,
    pub s: u32,
    pub rule: Rule,
}

/// The names of a path.
fn names(path: &[u8]) -> Vec<&[u8]> {
    path.split(|&byte| byte == JOINT).collect()
}

impl Directories<'_> {
    /// The library's answer.
    pub fn look_up(&self, path: &[u8]) -> Result<Option<Target>, Refusal> {
        perq::look_up(self.image, self.drive, self.s, &self.rule, path)
    }

    /// The library's answer.
    pub fn tree(&self, most: u32) -> Result<Tree, Refusal> {
        perq::tree(self.image, self.drive, self.s, &self.rule, most as usize)
    }

    /// The file that a path leads to; the empty path leads to the root directory.
    pub fn find(&self, path: &[u8]) -> Result<u32, Problem> {
        let told = match self.look_up(path).map_err(|refusal| self.refused(refusal))? {
            Some(Target::File(file)) => return Ok(file),
            Some(Target::Dangling) => self.dangling(path),
            None => format!("is not there: {}", self.missing(path)),
        };
        let told = format!("the path '{}' {told}", escaped(path));
        Err(Problem::new(Outcome::Absent, told))
    }

    /// How many names of a path that is not there lead to an entry, from the root on; the last one is not asked.
    fn led(&self, names: &[&[u8]]) -> usize {
        // An empty name is no entry's, and alone would be the root's path.
        let leads = |&count: &usize| {
            let beginning = names[..count].join(&JOINT);
            !names[0].is_empty() && matches!(self.look_up(&beginning), Ok(Some(_)))
        };
        (1..names.len()).take_while(leads).last().unwrap_or(0)
    }

    /// Whether a path that is not there has a dangling entry on its way.
    pub fn is_barred(&self, path: &[u8]) -> bool {
        let names = names(path);
        let beginning = names[..self.led(&names)].join(&JOINT);
        matches!(self.look_up(&beginning), Ok(Some(Target::Dangling)))
    }

    /// What ends a path that is not there: the first of its names that leads nowhere, or the one before it.
    fn missing(&self, path: &[u8]) -> String {
        if path.ends_with(&[JOINT]) {
            return "a path does not end in '>'".to_string();
        }
        let names = names(path);
        let count = self.led(&names);
        let beginning = names[..count].join(&JOINT);
        let place = match count {
            0 => "the root directory".to_string(),
            _ => format!("'{}'", escaped(&beginning)),
        };
        match self.look_up(&beginning) {
            Ok(Some(Target::File(f))) if count == 0 || self.is_directory(f) => {
                let (name, selected) = (escaped_name(names[count]), self.selected());
                format!("{place} (block {f}) has no entry '{name}'{selected}")
            }
            Ok(Some(Target::File(f))) => format!("{place} (block {f}) is no directory"),
            _ => format!("{place} {}", self.dangling(&beginning)),
        }
    }

    /// What is said of the dangling entry that a path leads to.
    fn dangling(&self, path: &[u8]) -> String {
        match self.held(path) {
            Some(held @ Held::Malformed(block)) => {
                format!("is a dangling entry: {held}; --file {block} says more")
            }
            Some(held) => format!("is a dangling entry: {held}"),
            None => "is a dangling entry".to_string(),
        }
    }

    /// What the entry that a path leads to holds.
    fn held(&self, path: &[u8]) -> Option<Held> {
        let names = names(path);
        let (name, above) = names.split_last()?;
        let Ok(Some(Target::File(f))) = self.look_up(&above.join(&JOINT)) else { return None };
        let entries = self.entries(f).ok()?;
        let mut taken = entries.iter().filter(|entry| entry.is_selected(&self.rule));
        let entry = taken.find(|entry| entry.name.eq_ignore_ascii_case(name))?;
        Some(Held::of(self, entry.lda))
    }

    /// Where an entry must stand, if the rule is known.
    fn selected(&self) -> &'static str {
        match self.rule {
            Rule::Unknown => "",
            Rule::Weights(_) => " in a block that the rule selects",
        }
    }

    /// Whether a file is a directory; the root is one without being asked.
    fn is_directory(&self, f: u32) -> bool {
        fields::word(self.image, f, SORT) == DIRECTORY
    }

    /// The refusal of a look-up or of a tree.
    pub fn refused(&self, refusal: Refusal) -> Problem {
        match refusal {
            Refusal::NoFile => Problem::refused(refusal, &self.no_root()),
            _ => Asked::of(self.image, self.drive, self.s).refused(refusal),
        }
    }

    /// Why a good partition has no root directory.
    fn no_root(&self) -> String {
        let Directories { image, drive, s, .. } = *self;
        let id = fields::pair(image, s, ROOT_DIRECTORY);
        let held = match perq::lda_to_lbn(drive, id) {
            Err(_) if id == 0 => "is nil".to_string(),
            Err(_) => format!("is {} in octal, which is no block's LDA", Words(id)),
            Ok(block) => match perq::description(image, drive, s, block) {
                Err(Refusal::Malformed { .. }) => {
                    format!("names block {block}, a malformed file block")
                }
                _ => format!("names block {block}, which is no file"),
            },
        };
        format!("the partition at block {s} has no root directory: its RootDirectoryID {held}")
    }

    /// How many entries a tree that is refused with `rows` can be asked for, as many as can be or, where these are more than
    /// 1,024, at least half as many: every attempt is a walk. A walk that is refused is refused with more room too.
    pub fn before_the_tenth_level(&self, rows: u32) -> u32 {
        const EXACT: u32 = 1_024;
        let is_shown = |rows: u32| self.tree(rows).is_ok();
        let (mut shown, mut refused) = (0, rows.min(16));
        while refused < rows && is_shown(refused) {
            (shown, refused) = (refused, refused.saturating_mul(2).min(rows));
        }
        while refused - shown > 1 && refused <= EXACT {
            let middle = shown + (refused - shown) / 2;
            if is_shown(middle) {
                shown = middle;
            } else {
                refused = middle;
            }
        }
        shown
    }
}
