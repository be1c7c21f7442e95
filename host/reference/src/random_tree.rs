//! Random trees for tests, with the rule that fits them, and random paths into them.
//! They have what document 02 speaks of: circles, dangling entries, wrong blocks, overflow, equal names.

use crate::directory::{Rule, DIRECTORY, HASHES, JOINT, LONGEST};
use crate::sample::Rng;
use crate::tree_sample::{Line, Names, Node, Stand, Tree};

/// Letters of both cases, their neighbours, and others that are not to be folded.
const CHARACTERS: &[u8] = b"ABCXYZabcxyz019.$@[`{\xC4\xE4";

/// What a tree under way is to have. The nodes are the directories of the spine, each in the one
/// before, then side directories, then files.
struct Draft<'a> {
    rng: &'a mut Rng,
    rule: Vec<u8>,
    spine: u32,
    sides: u32,
    files: u32,
    /// Whether directories name directories above or beside them.
    circles: bool,
}

/// A tree with a chain of so many directories, at least one, the root first. It takes fewer than
/// 300 blocks for up to 11 levels. Without circles a walk meets level `levels`, or one more.
pub fn random_tree(rng: &mut Rng, levels: u32) -> Tree {
    let mut rule = vec![0; if rng.below(4) == 0 { 0 } else { LONGEST + 1 }];
    rng.fill(&mut rule);
    let (sides, files, circles) = (rng.below(3), 1 + rng.below(5), rng.below(3) == 0);
    let mut draft = Draft { rng, rule, spine: levels, sides, files, circles };
    draft.tree()
}

impl Draft<'_> {
    fn tree(&mut self) -> Tree {
        let directories = self.spine + self.sides;
        let (long, crowded) = (self.rng.below(2 * directories), self.rng.below(2 * directories));
        let mut nodes = Vec::new();
        for i in 0..directories {
            let length = if i == long { 32 + self.rng.below(40) } else { 1 + self.rng.below(3) };
            let crowd = if i == crowded { 16 + self.rng.below(8) } else { 0 };
            let lines = self.lines(i, length, crowd);
            nodes.push(Node { sort: DIRECTORY, length, lines });
        }
        nodes[0].sort = [DIRECTORY, DIRECTORY, 0][self.rng.below(3) as usize];
        (0..self.files).for_each(|_| nodes.push(self.file()));
        Tree { rule: self.rule.clone(), nodes }
    }

    /// A file that is no directory; some look like one inside.
    fn file(&mut self) -> Node {
        let sort = [0, 2, 4, 0x0103, 0x0300][self.rng.below(5) as usize];
        let length = self.rng.below(3);
        let lines = if length == 2 { self.lines(0, length, 0) } else { Vec::new() };
        Node { sort, length, lines }
    }

    /// The lines of directory i: random ones, the next directory of the spine among them, and so
    /// many more in one block, which then overflows.
    fn lines(&mut self, i: u32, length: u32, crowd: u32) -> Vec<Line> {
        let mut lines: Vec<Line> = Vec::new();
        for _ in 0..self.rng.below(7) {
            let line = self.line(i, length, &lines);
            lines.push(line);
        }
        if i + 1 < self.spine {
            let name = self.findable_name(length);
            let mut next = Line::new(&name, Names::Node(i as usize + 1));
            next.stand = self.good_stand(&name, length);
            lines.insert(self.rng.below(lines.len() as u32 + 1) as usize, next);
        }
        for _ in 0..crowd {
            let (name, names) = (self.name(1), self.names(i));
            lines.push(Line { stand: Stand::Selected(0), ..Line::new(&name, names) });
        }
        lines
    }

    /// A line of directory i, good or with one fault, its name new or another line's in other cases.
    fn line(&mut self, i: u32, length: u32, before: &[Line]) -> Line {
        let name = match before.len() as u32 {
            lines if lines > 0 && self.rng.below(5) == 0 => {
                let same = self.rng.below(lines) as usize;
                recased(self.rng, &before[same].name)
            }
            _ => self.name(length),
        };
        let stand = self.good_stand(&name, length);
        let mut line = Line { stand, ..Line::new(&name, self.names(i)) };
        match self.rng.below(15) {
            0 | 1 => line.stand = Stand::Wrong,
            2 => line.flags = 0,
            3 => line.length = [0, 26, 27, 255][self.rng.below(4) as usize],
            _ => {}
        }
        if self.rng.below(3) == 0 {
            line.flags |= self.rng.number() as u16 & !1;
        }
        line
    }

    /// What a line of directory i names. A side directory names directories only in circles.
    fn names(&mut self, i: u32) -> Names {
        let (side, directories) = (self.spine, self.spine + self.sides);
        let node = match self.rng.below(10) {
            0 | 1 => return self.dangling(),
            2 | 3 if self.circles => self.rng.below(directories),
            4 if self.sides > 0 && i < self.spine => side + self.rng.below(self.sides),
            _ => directories + self.rng.below(self.files),
        };
        Names::Node(node as usize)
    }

    /// Nil, the PIB, a data block, a free one or none of the partition, or no LDA at all.
    fn dangling(&mut self) -> Names {
        let nodes = self.spine + self.sides + self.files;
        match self.rng.below(6) {
            0 => Names::Words(0),
            1 => Names::Words(self.rng.number() as u32),
            2 => Names::Block(0),
            3 => Names::Smudged(self.rng.below(nodes) as usize),
            _ => Names::Block(nodes + 1 + self.rng.below(200)),
        }
    }

    /// A selected block of a directory of this length: overflow blocks too, if it has any.
    fn good_stand(&mut self, name: &[u8], length: u32) -> Stand {
        match self.hash(name) {
            None => Stand::Block(self.rng.below(length)),
            Some(hash) if hash < length => {
                Stand::Selected(self.rng.below((length - 1 - hash) / HASHES + 1))
            }
            Some(_) => Stand::Selected(0),
        }
    }

    fn hash(&self, name: &[u8]) -> Option<u32> {
        Rule::lent(&self.rule).ok()?.hash(name)
    }

    /// A name that selects one of the first `length` blocks, if one is found soon.
    fn name(&mut self, length: u32) -> Vec<u8> {
        let mut name = self.any_name();
        for _ in 0..1_000 {
            if self.hash(&name).is_none_or(|hash| hash < length) {
                break;
            }
            name = self.any_name();
        }
        name
    }

    /// The same without a joint, which a path cannot have in a name.
    fn findable_name(&mut self, length: u32) -> Vec<u8> {
        loop {
            let name = self.name(length);
            if !name.contains(&JOINT) {
                return name;
            }
        }
    }

    fn any_name(&mut self) -> Vec<u8> {
        let longest = if self.rng.below(8) == 0 { LONGEST as u32 } else { 3 };
        let length = 1 + self.rng.below(longest);
        let mut name: Vec<u8> = (0..length).map(|_| self.character()).collect();
        if self.rng.below(12) == 0 {
            name[self.rng.below(length) as usize] = JOINT;
        }
        name
    }

    fn character(&mut self) -> u8 {
        CHARACTERS[self.rng.below(CHARACTERS.len() as u32) as usize]
    }
}

/// The name with each letter in a case of its own.
pub fn recased(rng: &mut Rng, name: &[u8]) -> Vec<u8> {
    let recase = |c: &u8| match rng.below(2) {
        0 => c.to_ascii_lowercase(),
        _ => c.to_ascii_uppercase(),
    };
    name.iter().map(recase).collect()
}

/// A path of up to 12 names that mostly follows the lines of the tree, often down to where it ends.
/// A part may be wrong, or empty.
pub fn random_path(rng: &mut Rng, tree: &Tree) -> Vec<u8> {
    let mut names = Vec::new();
    let mut at = Some(0);
    while names.len() < 12 && rng.below(14) > 0 {
        let Some(line) = at.and_then(|i| random_line(rng, tree, i)) else {
            break;
        };
        names.push(recased(rng, &line.name));
        at = match line.names {
            Names::Node(i) if tree.nodes[i].sort == DIRECTORY || rng.below(3) == 0 => Some(i),
            _ => None,
        };
    }
    let mut path = names.join(&JOINT);
    let place = rng.below(path.len() as u32 + 1) as usize;
    match rng.below(12) {
        0 => path.push(JOINT),
        1 => path.insert(place, JOINT),
        2 => path.insert(place, b'A'),
        _ => {}
    }
    path
}

/// A line of node i; if some name directories, it is mostly one of those.
fn random_line<'a>(rng: &mut Rng, tree: &'a Tree, i: usize) -> Option<&'a Line> {
    let lines: Vec<&Line> = tree.nodes[i].lines.iter().collect();
    let goes_on =
        |line: &Line| matches!(line.names, Names::Node(i) if tree.nodes[i].sort == DIRECTORY);
    let deeper: Vec<&Line> = lines.iter().copied().filter(|line| goes_on(line)).collect();
    let among = if deeper.is_empty() || rng.below(8) == 0 { lines } else { deeper };
    (!among.is_empty()).then(|| among[rng.below(among.len() as u32) as usize])
}
