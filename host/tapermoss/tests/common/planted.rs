//! Trees that the reference plants on a floppy, its partition from 6 to 431, so that node i is file 7 + i; and what is to be
//! found there, worked out from the description of the tree alone.

use super::{set_bytes, FLOPPY};
use reference::tree_sample::{plant, Line, Names, Node, Tree};

pub const S: u32 = 6;
const E: u32 = 431;

/// What joins the names of a path.
const JOINT: u8 = b'>';

/// A tree and the image that it is planted in.
pub struct Planted {
    pub tree: Tree,
    pub image: Vec<u8>,
}

/// An entry as the tool should show it.
#[derive(Debug, PartialEq, Eq)]
pub struct Entry {
    pub lbn: Option<u32>,
    pub level: usize,
    pub what: &'static str,
    /// What a dangling one holds, and the block if it is one's address.
    pub held: Option<(&'static str, Option<u32>)>,
    pub name: Vec<u8>,
    /// The names down to it, joined.
    pub joined: Vec<u8>,
    /// Why this is no path that leads to it.
    pub no_path: Option<&'static str>,
}

/// What a path leads to.
#[derive(Debug, PartialEq, Eq)]
pub enum Led {
    File(u32),
    Dangling,
    Nowhere,
    /// Into a directory of the tenth level.
    TooDeep(u32),
}

pub fn lbn(node: usize) -> u32 {
    S + 1 + node as u32
}

/// A valid line that names a node.
pub fn line(name: &str, node: usize) -> Line {
    Line::new(name.as_bytes(), Names::Node(node))
}

/// The same naming no file.
pub fn dangling(name: &str) -> Line {
    Line::new(name.as_bytes(), Names::Words(0))
}

/// Letters and a drawing: 7 the root, 8 the directory `letters`, 9 `first.text` in it with three blocks of `T`, 10
/// `House.drawing` in the root with seventy of `D`, and a dangling entry in both directories.
pub fn letters() -> Planted {
    let root = vec![line("letters", 1), line("House.drawing", 3), dangling("lost.text")];
    let inner = vec![line("first.text", 2), dangling("Old")];
    let nodes = vec![Node::directory(root), Node::directory(inner), Node::file(3), Node::file(70)];
    let mut planted = Planted::of(Tree { rule: Vec::new(), nodes });
    for (f, blocks, byte) in [(9, 3, b'T'), (10, 70, b'D')] {
        for r in 0..blocks {
            reference::write(&mut planted.image, FLOPPY, S, f, r, &[byte; 512], u32::MAX);
        }
    }
    planted
}

/// A chain of so many directories, the root first, each in the one before as `D`; the last is empty.
pub fn chain(levels: usize) -> Planted {
    let next = |next| Node::directory(vec![line("D", next)]);
    let mut nodes: Vec<Node> = (1..levels).map(next).collect();
    nodes.push(Node::directory(Vec::new()));
    Planted::of(Tree { rule: Vec::new(), nodes })
}

impl Planted {
    /// The names in the descriptions are blank, as create leaves them, so that only directories name a file.
    pub fn of(tree: Tree) -> Planted {
        let mut image = plant(&tree, FLOPPY, 432, S, E);
        (0..tree.nodes.len()).for_each(|node| set_bytes(&mut image, lbn(node), 11, &[0; 82]));
        Planted { tree, image }
    }

    /// The rule as --rule takes it; none where it is not known.
    pub fn rule(&self) -> Option<String> {
        let numbers: Vec<String> = self.tree.rule.iter().map(u8::to_string).collect();
        (!numbers.is_empty()).then(|| numbers.join(","))
    }

    /// The lines of a node that are to be taken, by block and place.
    pub fn taken(&self, node: usize) -> Vec<&Line> {
        let places = self.tree.places(node).into_iter();
        let mut lines: Vec<_> = places.zip(&self.tree.nodes[node].lines).collect();
        lines.sort_by_key(|(place, _)| *place);
        let rule = &self.tree.rule;
        let is_taken = |block: u32, line: &Line| {
            let is_valid = line.flags % 2 == 1 && usize::from(line.length) == line.name.len();
            is_valid && (rule.is_empty() || block % 31 == hash(rule, &line.name))
        };
        let taken = lines.into_iter().filter(|((block, _), line)| is_taken(*block, line));
        taken.map(|(_, line)| line).collect()
    }

    fn is_directory(&self, node: usize) -> bool {
        self.tree.nodes[node].sort == 3
    }

    /// All entries, the first `most` of them at most, and whether these are all; or the first directory of the tenth level.
    pub fn entries(&self, most: usize) -> Result<(Vec<Entry>, bool), u32> {
        let mut entries = Vec::new();
        let complete = self.walk(0, &[], true, most, &mut entries)?;
        Ok((entries, complete))
    }

    /// The entries below a node, after the names that lead to it, or do not; answers whether none was left out.
    fn walk(
        &self,
        node: usize,
        above: &[&[u8]],
        leads: bool,
        most: usize,
        entries: &mut Vec<Entry>,
    ) -> Result<bool, u32> {
        let lines = self.taken(node);
        for (i, line) in lines.iter().enumerate() {
            if entries.len() == most {
                return Ok(false);
            }
            let names = [above, &[&line.name]].concat();
            let (below, lbn) = match line.names {
                Names::Node(i) => (self.is_directory(i).then_some(i), Some(lbn(i))),
                _ => (None, None),
            };
            let what = match (below, lbn) {
                (Some(_), _) => "directory",
                (None, Some(_)) => "file",
                (None, None) => "dangling",
            };
            let no_path = no_path(&lines[..i], line, leads);
            let (name, joined) = (line.name.clone(), names.join(&JOINT));
            let held = lbn.is_none().then(|| held(line.names));
            entries.push(Entry { lbn, level: names.len(), what, held, name, joined, no_path });
            let leads = no_path.is_none();
            match below {
                Some(i) if names.len() == 9 => return Err(self::lbn(i)),
                Some(i) if !self.walk(i, &names, leads, most, entries)? => return Ok(false),
                _ => {}
            }
        }
        Ok(true)
    }

    pub fn led(&self, path: &[u8]) -> Led {
        if path.is_empty() {
            return Led::File(lbn(0));
        }
        let names: Vec<&[u8]> = path.split(|&byte| byte == JOINT).collect();
        let mut node = 0;
        for (count, name) in names.iter().enumerate() {
            if count == 9 {
                return Led::TooDeep(lbn(node));
            }
            let is_same = |line: &&&Line| line.name.eq_ignore_ascii_case(name);
            let is_last = count + 1 == names.len();
            node = match self.taken(node).iter().find(is_same).map(|line| line.names) {
                None => return Led::Nowhere,
                Some(Names::Node(i)) if is_last => return Led::File(lbn(i)),
                Some(_) if is_last => return Led::Dangling,
                Some(Names::Node(i)) if self.is_directory(i) => i,
                Some(_) => return Led::Nowhere,
            };
        }
        unreachable!("the last name is answered")
    }
}

/// Why no path leads to a line, after those of its directory that come before; `leads`: one leads to the directory.
fn no_path(before: &[&Line], line: &Line, leads: bool) -> Option<&'static str> {
    let is_same = |earlier: &&Line| earlier.name.eq_ignore_ascii_case(&line.name);
    match (before.iter().any(is_same), line.name.contains(&JOINT)) {
        (true, _) => Some("an earlier entry has this name"),
        (_, true) => Some("'>' in the name"),
        _ => (!leads).then_some("none leads to its directory"),
    }
}

/// What a line holds that names no node.
fn held(names: Names) -> (&'static str, Option<u32>) {
    let block = match names {
        Names::Words(0) => return ("nil", None),
        Names::Words(words) => match reference::lda_to_lbn(FLOPPY, words) {
            answer if answer.outcome == reference::DONE => answer.a,
            _ => 0,
        },
        Names::Block(k) => S + k,
        Names::Node(_) | Names::Smudged(_) => 0,
    };
    match (S..=E).contains(&block) {
        true => ("no file", Some(block)),
        false => ("no block of the partition", None),
    }
}

/// The hash of a name, by the formula of the request.
fn hash(rule: &[u8], name: &[u8]) -> u32 {
    let letters = name.iter().map(|&letter| u32::from(letter.to_ascii_uppercase()));
    let numbers = [name.len() as u32].into_iter().chain(letters);
    rule.iter().zip(numbers).map(|(&weight, number)| u32::from(weight) * number).sum::<u32>() % 31
}

/// A path as the tool prints it.
pub fn escaped(path: &[u8]) -> String {
    path.split(|byte| *byte == JOINT).map(escaped_name).collect::<Vec<String>>().join(">")
}

/// A name as the tool prints it.
pub fn escaped_name(name: &[u8]) -> String {
    let shown = |byte: &u8| match byte {
        b'\\' => "\\\\".to_string(),
        b'>' | ..b' ' | 127.. => format!("\\x{byte:02x}"),
        _ => char::from(*byte).to_string(),
    };
    let text: String = name.iter().map(shown).collect();
    let text = text.strip_prefix(' ').map_or(text.clone(), |rest| format!("\\x20{rest}"));
    text.strip_suffix(' ').map_or(text.clone(), |rest| format!("{rest}\\x20"))
}
