//! Directories: what a path leads to, and the tree below the root.

use crate::refusal::{done, found};
use crate::{raw, Drive, Refusal};

/// The bytes of a row of [`raw::tree`].
pub const ROW: usize = 32;
/// What joins the names of a path. A name on the disk may have it too, and then no path leads to its entry.
pub const JOINT: u8 = b'>';

/// The letters of the longest name.
const LONGEST: usize = 25;
/// How many rows are asked for first.
const FIRST_ROWS: usize = 64;

/// The hash rule: in which blocks of a directory the entry of a name may stand. An entry in another block is not taken.
///
/// Block `r` is selected by a name if `r mod 31` is the name's hash: `(w0 * n + w1 * c1 + .. + wn * cn) mod 31` of its `n`
/// letters, each taken as a capital.
///
/// ```
/// use perq::{Refusal, Rule};
///
/// let mut weights = [0; 26];
/// weights[..3].copy_from_slice(&[2, 1, 3]);
/// let rule = Rule::from_bytes(&weights)?;
/// assert_eq!(rule.hash(b"ab"), Some(19)); // 2 * 2 + 1 * 65 + 3 * 66 = 267 = 8 * 31 + 19
/// assert_eq!(Rule::Unknown.hash(b"ab"), None);
/// assert_eq!(Rule::from_bytes(&weights[..25]), Err(Refusal::Buffer));
/// # Ok::<(), Refusal>(())
/// ```
#[derive(Clone, Copy, Debug, Default, PartialEq, Eq, Hash)]
pub enum Rule {
    /// Not known: every block is selected by every name.
    #[default]
    Unknown,
    /// The weights `w0` to `w25`.
    Weights([u8; LONGEST + 1]),
}

impl Rule {
    /// The rule that the library takes these bytes for: none, or 26; another length is refused by 3.
    pub fn from_bytes(bytes: &[u8]) -> Result<Rule, Refusal> {
        match bytes.try_into() {
            Ok(weights) => Ok(Rule::Weights(weights)),
            Err(_) if bytes.is_empty() => Ok(Rule::Unknown),
            Err(_) => Err(Refusal::Buffer),
        }
    }

    /// The bytes that the library is lent for the rule: none, or the 26 weights.
    pub fn bytes(&self) -> &[u8] {
        match self {
            Rule::Unknown => &[],
            Rule::Weights(weights) => weights,
        }
    }

    /// The hash of a name, 0 to 30; none if the rule is not known or the name has more than 25 letters.
    pub fn hash(&self, name: &[u8]) -> Option<u8> {
        let Rule::Weights(weights) = self else {
            return None;
        };
        if name.len() > LONGEST {
            return None;
        }
        let letters = name.iter().map(|letter| u32::from(letter.to_ascii_uppercase()));
        let numbers = std::iter::once(name.len() as u32).chain(letters);
        let sum: u32 = weights.iter().zip(numbers).map(|(&w, number)| u32::from(w) * number).sum();
        Some((sum % 31) as u8)
    }
}

/// What a path leads to.
#[derive(Clone, Copy, Debug, PartialEq, Eq)]
pub enum Target {
    /// The file with this LBN.
    File(u32),
    /// An entry that is there, but names no file of the partition.
    Dangling,
}

/// What the path leads to from the partition's root directory; none if it is not there. A path is names joined by `>`, compared
/// without case; the empty one is the root. The image need not be sound.
///
/// ```
/// # use reference::tree_sample::{plant, Line, Names, Node, Tree};
/// # let mail = Node::directory(vec![Line::new(b"Note", Names::Node(2)), Line::new(b"Lost", Names::Words(0))]);
/// # let nodes = vec![Node::directory(vec![Line::new(b"Mail", Names::Node(1))]), mail, Node::file(2)];
/// # let image = plant(&Tree { rule: vec![], nodes }, 0, 40, 1, 39);
/// use perq::{look_up, Drive, Rule, Target};
///
/// let led = |path: &[u8]| look_up(&image, Drive::Shugart12, 1, &Rule::Unknown, path);
/// assert_eq!(led(b"")?, Some(Target::File(2)));
/// assert_eq!(led(b"MAIL>note")?, Some(Target::File(4)));
/// assert_eq!(led(b"Mail>Lost")?, Some(Target::Dangling));
/// assert_eq!(led(b"Note")?, None);
/// # Ok::<(), perq::Refusal>(())
/// ```
pub fn look_up(
    image: &[u8],
    drive: Drive,
    s: u32,
    rule: &Rule,
    path: &[u8],
) -> Result<Option<Target>, Refusal> {
    let answer = found(raw::look_up(image, drive.number(), s, rule.bytes(), path))?;
    Ok(answer.map(|answer| match answer.b {
        0 => Target::File(answer.a),
        _ => Target::Dangling,
    }))
}

/// What an entry names.
#[derive(Clone, Copy, Debug, PartialEq, Eq, Hash)]
pub enum What {
    /// A file that is no directory.
    File,
    /// A file that is a directory.
    Directory,
    /// No file of the partition.
    Dangling,
}

/// An entry of a tree.
#[derive(Clone, Debug, PartialEq, Eq)]
pub struct Row {
    /// The LBN of the file it names; none if it is dangling.
    pub target: Option<u32>,
    /// The level of the directory that it stands in; the root's is 1.
    pub level: u32,
    /// What it names.
    pub what: What,
    /// Its name as it stands on the disk, 1 to 25 bytes of any value.
    pub name: Vec<u8>,
    /// The names from the root down to this one, joined by `>`. It leads back here unless a name has a `>` in it, or the same
    /// name stands earlier in its directory.
    pub path: Vec<u8>,
}

/// The entries of a tree.
#[derive(Clone, Debug, PartialEq, Eq)]
pub struct Tree {
    /// Depth first; those of one directory by block and place.
    pub rows: Vec<Row>,
    /// Whether these are all of them; if not, only so many were asked for.
    pub complete: bool,
}

/// The tree below the partition's root directory, at most so many entries of it. A file that several entries name comes up
/// under each of them, so a small image may have more entries than fit any memory: `most` is what the caller can hold.
///
/// ```
/// # use reference::tree_sample::{plant, Line, Names, Node, Tree};
/// # let mail = Node::directory(vec![Line::new(b"Note", Names::Node(2)), Line::new(b"Lost", Names::Words(0))]);
/// # let nodes = vec![Node::directory(vec![Line::new(b"Mail", Names::Node(1))]), mail, Node::file(2)];
/// # let image = plant(&Tree { rule: vec![], nodes }, 0, 40, 1, 39);
/// use perq::{tree, Drive, Rule, What};
///
/// let tree = tree(&image, Drive::Shugart12, 1, &Rule::Unknown, 1_000)?;
/// assert!(tree.complete);
/// let paths: Vec<&[u8]> = tree.rows.iter().map(|row| &row.path[..]).collect();
/// assert_eq!(paths, [&b"Mail"[..], b"Mail>Note", b"Mail>Lost"]);
/// assert_eq!((tree.rows[1].what, tree.rows[1].target), (What::File, Some(4)));
/// assert_eq!((tree.rows[2].what, tree.rows[2].target), (What::Dangling, None));
/// # Ok::<(), perq::Refusal>(())
/// ```
pub fn tree(image: &[u8], drive: Drive, s: u32, rule: &Rule, most: usize) -> Result<Tree, Refusal> {
    let mut room = most.min(FIRST_ROWS);
    loop {
        let mut bytes = vec![0; ROW * room];
        let answer = done(raw::tree(image, drive.number(), s, rule.bytes(), &mut bytes))?;
        let complete = answer.b == 0;
        if complete || room == most {
            return Ok(Tree { rows: rows(&bytes[..ROW * answer.a as usize]), complete });
        }
        room = most.min(room.saturating_mul(2));
    }
}

/// The rows that the library filled, each with its path.
fn rows(bytes: &[u8]) -> Vec<Row> {
    // The path of the entry last seen at each level: above a row stands the one of the level before.
    let mut last: Vec<Vec<u8>> = Vec::new();
    let row = |bytes: &[u8]| {
        let level = u32::from(bytes[4]);
        let name = bytes[7..][..usize::from(bytes[6])].to_vec();
        last.truncate(level as usize - 1);
        last.push(match last.last() {
            Some(above) => [&above[..], &name].join(&JOINT),
            None => name.clone(),
        });
        let path = last[level as usize - 1].clone();
        let (target, what) = named(bytes);
        Row { target, level, what, name, path }
    };
    bytes.chunks_exact(ROW).map(row).collect()
}

/// What the entry of a row names.
fn named(row: &[u8]) -> (Option<u32>, What) {
    let block = Some(u32::from_le_bytes([row[0], row[1], row[2], row[3]]));
    match row[5] {
        0 => (block, What::File),
        1 => (block, What::Directory),
        _ => (None, What::Dangling),
    }
}
