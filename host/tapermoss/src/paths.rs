//! The paths by which the tree of a partition leads to its files.

use crate::directories::Directories;
use crate::fields::escaped_path;
use crate::walked::Walked;
use perq::{Refusal, Tree};
use std::collections::HashMap;

/// The paths of every file that the tree reaches. Each leads back to it.
#[derive(Default)]
pub struct Paths {
    by_file: HashMap<u32, Vec<Vec<u8>>>,
    /// Whether there is a tree.
    is_there: bool,
    /// Whether these are all paths.
    pub complete: bool,
    /// Why there are none, or not all.
    pub remark: Option<String>,
    /// How many valid entries the rule does not select.
    pub passed_over: u32,
}

impl Paths {
    /// Those of the first entries of the tree, so many at most; of one that is too deep, of entries before that.
    pub fn of_tree(directories: &Directories, most: u32) -> Paths {
        let none =
            |why: String| Paths { remark: Some(format!("no paths: {why}")), ..Paths::default() };
        let found = directories.find(b"").and_then(|root| {
            let refused = |refusal| directories.refused(refusal);
            let (tree, remark) = beginning(directories, most).map_err(refused)?;
            Ok((Walked::of(directories, root, tree).map_err(refused)?, remark))
        });
        let (walked, remark) = match found {
            Ok(found) => found,
            Err(problem) => return none(problem.sentence),
        };
        let mut by_file: HashMap<u32, Vec<Vec<u8>>> = HashMap::new();
        for met in &walked.entries {
            if let (Some(file), Some(path)) = (met.row.target, met.path()) {
                by_file.entry(file).or_default().push(path.to_vec());
            }
        }
        let Walked { complete, passed_over, .. } = walked;
        Paths { by_file, is_there: true, complete, remark, passed_over }
    }

    /// The paths of a file, in the order of the tree.
    pub fn of(&self, file: u32) -> &[Vec<u8>] {
        self.by_file.get(&file).map_or(&[], Vec::as_slice)
    }

    /// What is printed beside a file's name: nothing if the name is the only path, another path if there is one, a stroke if
    /// none leads to the file, and a question mark if that is not known.
    pub fn beside(&self, file: u32, name: &[u8]) -> String {
        let all = self.of(file);
        let mut others = all.iter().filter(|path| !path.eq_ignore_ascii_case(name));
        match (others.next(), others.count()) {
            (Some(path), 0) => escaped_path(path),
            (Some(path), more) => format!("{} (and {more} more)", escaped_path(path)),
            (None, _) if !all.is_empty() || !self.is_there => String::new(),
            (None, _) if self.complete => "-".to_string(),
            (None, _) => "?".to_string(),
        }
    }
}

/// The first entries of the tree, so many at most, and why these are not all.
fn beginning(directories: &Directories, most: u32) -> Result<(Tree, Option<String>), Refusal> {
    match directories.tree(most) {
        Ok(tree) => {
            let remark = format!("not all paths: the tree has more than {most} entries");
            let remark = (!tree.complete).then_some(remark);
            Ok((tree, remark))
        }
        Err(refusal @ Refusal::TooDeep { .. }) => {
            let tree = directories.tree(directories.before_the_tenth_level(most))?;
            let remark = format!("not all paths: {}", directories.refused(refusal).sentence);
            Ok((tree, Some(remark)))
        }
        Err(refusal) => Err(refusal),
    }
}
