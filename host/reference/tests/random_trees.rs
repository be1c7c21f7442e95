//! Random trees: the partition is sound, and look up and tree answer as a plain model of the
//! description does. Spoilt images are answered without harm.

mod common;
use common::*;
use reference::random_tree::{random_path, random_tree};
use reference::sample::Rng;
use reference::tree_sample::{plant, Line, Names, Tree};
use reference::*;
use std::collections::HashSet;

/// A tree with the place of its partition.
struct Planted {
    tree: Tree,
    image: Vec<u8>,
    drive: u32,
    s: u32,
}

fn planted(rng: &mut Rng) -> Planted {
    let levels = 8 + rng.below(4);
    let tree = random_tree(rng, levels);
    assert!(tree.blocks() < 300);
    let (drive, s) = (rng.below(4), 1 + rng.below(100));
    let e = s + tree.blocks() + 1 + rng.below(10);
    let image = plant(&tree, drive, e + 1 + rng.below(10), s, e);
    let answer = check(&image, drive, s);
    assert_eq!((answer.outcome, answer.a), (DONE, tree.nodes.len() as u32));
    Planted { tree, image, drive, s }
}

fn hash(rule: &[u8], name: &[u8]) -> u32 {
    let mut sum = u32::from(rule[0]) * name.len() as u32;
    for (i, c) in name.iter().enumerate() {
        let capital = if c.is_ascii_lowercase() { c - 32 } else { *c };
        sum += u32::from(rule[i + 1]) * u32::from(capital);
    }
    sum % 31
}

/// What the walk does when it ends before its time.
#[derive(PartialEq, Debug)]
enum Ends {
    Full,
    Deep(usize),
}

impl Planted {
    fn lbn(&self, node: usize) -> u32 {
        self.s + 1 + node as u32
    }

    /// The lines taken from node i, by block and place.
    fn taken(&self, i: usize) -> Vec<&Line> {
        let mut lines: Vec<_> =
            self.tree.places(i).into_iter().zip(&self.tree.nodes[i].lines).collect();
        lines.sort_by_key(|line| line.0);
        let rule = &self.tree.rule;
        let good = |r: u32, line: &Line| {
            line.flags % 2 == 1
                && usize::from(line.length) == line.name.len()
                && (rule.is_empty() || r % 31 == hash(rule, &line.name))
        };
        lines.into_iter().filter(|((r, _), line)| good(*r, line)).map(|(_, line)| line).collect()
    }

    fn is_directory(&self, node: usize) -> bool {
        self.tree.nodes[node].sort == 3
    }

    fn walk(&self, node: usize, level: u8, room: usize, rows: &mut Vec<u8>) -> Result<(), Ends> {
        for line in self.taken(node) {
            if rows.len() == 32 * room {
                return Err(Ends::Full);
            }
            let (lbn, what, below) = match line.names {
                Names::Node(i) if self.is_directory(i) => (self.lbn(i), 1, Some(i)),
                Names::Node(i) => (self.lbn(i), 0, None),
                _ => (0, 2, None),
            };
            rows.extend(lbn.to_le_bytes());
            rows.extend([level, what, line.length]);
            rows.extend(&line.name);
            rows.resize(rows.len().next_multiple_of(32), 0);
            match below {
                Some(i) if level == 9 => return Err(Ends::Deep(i)),
                Some(i) => self.walk(i, level + 1, room, rows)?,
                None => {}
            }
        }
        Ok(())
    }

    /// The answer of tree, and the bytes it leaves in a buffer of 0xA5.
    fn model_tree(&self, room: usize) -> (Answer, Vec<u8>) {
        let mut rows = Vec::new();
        let ended = self.walk(0, 1, room, &mut rows);
        if let Err(Ends::Deep(i)) = ended {
            return (deep(self.lbn(i)), vec![0xA5; 32 * room]);
        }
        let filled = rows.len() as u32 / 32;
        rows.resize(32 * room, 0xA5);
        (done(filled, u32::from(ended == Err(Ends::Full))), rows)
    }

    fn model_look_up(&self, path: &[u8]) -> Answer {
        if path.is_empty() {
            return done(self.lbn(0), 0);
        }
        let parts: Vec<&[u8]> = path.split(|&c| c == b'>').collect();
        let mut at = 0;
        for (level, part) in parts.iter().enumerate() {
            if level == 9 {
                return deep(self.lbn(at));
            }
            let capitals = part.to_ascii_uppercase();
            let same = |line: &&&Line| line.name.to_ascii_uppercase() == capitals;
            let last = level + 1 == parts.len();
            at = match self.taken(at).iter().find(same).map(|line| line.names) {
                None => return absent(),
                Some(Names::Node(i)) if last => return done(self.lbn(i), 0),
                Some(_) if last => return done(0, 1),
                Some(Names::Node(i)) if self.is_directory(i) => i,
                Some(_) => return absent(),
            };
        }
        unreachable!("the last part is answered");
    }
}

#[test]
fn trees_are_those_of_the_model() {
    let mut rng = Rng::new(1);
    // Walks to the end, walks that stop, walks that meet the tenth level.
    let mut seen = [0; 3];
    for _ in 0..400 {
        let made = planted(&mut rng);
        let (few, some) = (rng.below(9) as usize, rng.below(60) as usize);
        for room in [0, few, some, 1_000] {
            let mut bytes = vec![0xA5; 32 * room];
            let answer = tree(&made.image, made.drive, made.s, &made.tree.rule, &mut bytes);
            let (expected, rows) = made.model_tree(room);
            assert_eq!(answer, expected);
            assert!(bytes == rows);
            seen[if answer.outcome == REFUSED { 2 } else { answer.b as usize }] += 1;
        }
    }
    assert!(seen.iter().all(|&times| times > 100), "{seen:?}");
}

#[test]
fn paths_are_those_of_the_model() {
    let mut rng = Rng::new(2);
    // Files, dangling ends, absent ones, the tenth level.
    let mut seen = [0; 4];
    for _ in 0..200 {
        let made = planted(&mut rng);
        for _ in 0..100 {
            let path = random_path(&mut rng, &made.tree);
            let answer = look_up(&made.image, made.drive, made.s, &made.tree.rule, &path);
            assert_eq!(answer, made.model_look_up(&path));
            seen[match answer.outcome {
                DONE => answer.b as usize,
                ABSENT => 2,
                _ => 3,
            }] += 1;
        }
    }
    assert!(seen.iter().all(|&times| times > 200), "{seen:?}");
}

/// The rows filled, each with the path that leads to it.
fn listed(made: &Planted, room: usize) -> Vec<(Vec<u8>, Vec<u8>)> {
    let mut bytes = vec![0; 32 * room];
    let call = tree(&made.image, made.drive, made.s, &made.tree.rule, &mut bytes);
    let mut names: Vec<&[u8]> = Vec::new();
    let mut rows = Vec::new();
    for row in bytes.chunks(32).take(call.a as usize) {
        names.truncate(usize::from(row[4]) - 1);
        names.push(&row[7..7 + usize::from(row[6])]);
        rows.push((row.to_vec(), names.join(&b'>')));
    }
    rows
}

/// Whether look up finds each row in turn by its path: it does if it finds the directory, the name has
/// no '>', and no row before it has the same name, without case, in the same directory.
fn findable(rows: &[(Vec<u8>, Vec<u8>)]) -> Vec<bool> {
    let (mut met, mut above) = (HashSet::new(), Vec::new());
    let found = |(row, path): &(Vec<u8>, Vec<u8>)| {
        above.truncate(usize::from(row[4]) - 1);
        let plain = above.last().copied().unwrap_or(true) && !row[7..].contains(&b'>');
        above.push(plain && met.insert(path.to_ascii_uppercase()));
        above[above.len() - 1]
    };
    rows.iter().map(found).collect()
}

#[test]
fn what_tree_lists_look_up_finds() {
    let mut rng = Rng::new(3);
    // Rows that are to be found, and rows that others or a '>' hide.
    let (mut found, mut hidden) = (0, 0);
    for _ in 0..200 {
        let made = planted(&mut rng);
        for rows in [listed(&made, 1_000), listed(&made, 8)] {
            for ((row, path), findable) in rows.iter().zip(findable(&rows)) {
                if !findable {
                    hidden += 1;
                    continue;
                }
                let lbn = u32::from_le_bytes(row[..4].try_into().unwrap());
                let answer = look_up(&made.image, made.drive, made.s, &made.tree.rule, path);
                assert_eq!(answer, done(lbn, u32::from(row[5] == 2)), "{}", path.escape_ascii());
                found += 1;
            }
        }
    }
    assert!(found > 3_000 && hidden > 300, "{found} found, {hidden} hidden");
}

/// Up to 20 bytes of the image become others.
fn spoil(rng: &mut Rng, image: &mut [u8]) {
    for _ in 0..1 + rng.below(20) {
        let at = rng.below(image.len() as u32) as usize;
        image[at] = rng.number() as u8;
    }
}

#[test]
fn spoilt_images_are_answered() {
    let mut rng = Rng::new(4);
    // Images of which tree answers another thing than before.
    let mut others = 0;
    for _ in 0..100 {
        let made = planted(&mut rng);
        let Planted { drive, s, tree: Tree { rule, .. }, .. } = &made;
        let before = made.model_tree(50);
        for _ in 0..20 {
            let mut image = made.image.clone();
            spoil(&mut rng, &mut image);
            let mut bytes = vec![0xA5; 32 * 50];
            let answer = tree(&image, *drive, *s, rule, &mut bytes);
            assert!([0, 2, 6, 11].contains(&answer.number));
            let filled = 32 * answer.a as usize;
            assert!(bytes[filled..].iter().all(|&byte| byte == 0xA5));
            others += u32::from((answer, bytes) != before);
            let path = random_path(&mut rng, &made.tree);
            let answer = look_up(&image, *drive, *s, rule, &path);
            assert!([0, 2, 6, 11].contains(&answer.number));
        }
    }
    assert!(others > 100, "{others}");
}

/// What a tree has: no rule, a root without word 8, and in its directories a wrong block, an overflow
/// block, a directory above or the same, a dangling, an invalid entry, one of a bad length, one with
/// the name of one before it, and a name with a '>'.
fn traits(tree: &Tree) -> [bool; 10] {
    let directory = |i: usize| tree.nodes[i].sort == 3;
    let mut has = [false; 10];
    (has[0], has[1]) = (tree.rule.is_empty(), !directory(0));
    for i in (0..tree.nodes.len()).filter(|&i| i == 0 || directory(i)) {
        let mut names = HashSet::new();
        for ((r, _), line) in tree.places(i).into_iter().zip(&tree.nodes[i].lines) {
            let node = if let Names::Node(node) = line.names { Some(node) } else { None };
            let here = [
                !tree.rule.is_empty() && r % 31 != hash(&tree.rule, &line.name),
                r >= 31,
                node.is_some_and(|to| to <= i && directory(to)),
                node.is_none(),
                line.flags % 2 == 0,
                line.length == 0 || line.length > 25,
                !names.insert(line.name.to_ascii_uppercase()),
                line.name.contains(&b'>'),
            ];
            has[2..].iter_mut().zip(here).for_each(|(has, here)| *has |= here);
        }
    }
    has
}

#[test]
fn random_trees_have_what_they_should() {
    let mut rng = Rng::new(5);
    let mut seen = [0; 10];
    for _ in 0..300 {
        let levels = 8 + rng.below(4);
        let has = traits(&random_tree(&mut rng, levels));
        seen.iter_mut().zip(has).for_each(|(times, has)| *times += u32::from(has));
    }
    assert!(seen.iter().all(|&times| times > 50), "{seen:?}");
}
