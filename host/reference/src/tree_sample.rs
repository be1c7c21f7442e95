//! Directory images for tests: a tree described plainly is made into a sound partition by the calls.
//! Random trees, and paths into them, are drawn in random_tree.rs.

use crate::address::Drive;
use crate::answer::{Answer, DONE};
use crate::changing::{create, describe, write};
use crate::directory::{Rule, ADDRESS, DIRECTORY, ENTRY, HASHES, LENGTH, LONGEST, NAME, SORT};
use crate::file::File;
use crate::image::{DATA, HEADER, RECORD, ROOT_DIRECTORY};
use crate::sample::{fresh, growth, named};
use std::collections::HashMap;

/// A tree to be made. Node 0 is the root; node i gets its FIB at s+1+i, kind i and the name "node i".
#[derive(Clone, Debug, Default)]
pub struct Tree {
    /// The hash rule: 26 weights, or no bytes.
    pub rule: Vec<u8>,
    pub nodes: Vec<Node>,
}

/// A file of the tree. One that is no directory may have lines too, which nothing should look at.
#[derive(Clone, Debug)]
pub struct Node {
    /// Word 8 of its description, 3 in a directory.
    pub sort: u16,
    /// How many blocks it has; more if its lines stand further on. There are no holes.
    pub length: u32,
    /// Its entries; those of one block fill its places in this order.
    pub lines: Vec<Line>,
}

/// An entry as it is to stand on the disk.
#[derive(Clone, Debug)]
pub struct Line {
    /// Word 0; bit 0 says that it is valid.
    pub flags: u16,
    pub names: Names,
    /// The length byte, which may be another than the name's length.
    pub length: u8,
    /// At most 25 characters; the bytes behind it are `BEHIND`.
    pub name: Vec<u8>,
    pub stand: Stand,
}

/// What stands behind a name, to be seen if it is taken for a part of it.
pub const BEHIND: u8 = b'?';

/// What a line has for the LDA of its target.
#[derive(Clone, Copy, Debug, PartialEq, Eq)]
pub enum Names {
    /// The LDA of this node, which may be the root or the line's own directory.
    Node(usize),
    /// The same with bit 15 of the high word clear, so that it is no LDA.
    Smudged(usize),
    /// The LDA of block s+k, whatever that is. Block e is free.
    Block(u32),
    /// These two words, low word + 65536 * high word.
    Words(u32),
}

/// In which block a line stands. If that is full it goes 31 blocks further on.
#[derive(Clone, Copy, Debug, PartialEq, Eq)]
pub enum Stand {
    /// So many times 31 behind the first block that the name selects (0 where the rule is not known).
    Selected(u32),
    /// The first block that the name does not select (1 where the rule is not known).
    Wrong,
    /// This block.
    Block(u32),
}

impl Node {
    pub fn directory(lines: Vec<Line>) -> Node {
        Node { sort: DIRECTORY, length: 0, lines }
    }

    /// A file that is no directory, with so many blocks.
    pub fn file(length: u32) -> Node {
        Node { sort: 0, length, lines: Vec::new() }
    }
}

impl Line {
    /// A valid line in the first block that the name selects.
    pub fn new(name: &[u8], names: Names) -> Line {
        assert!(name.len() <= LONGEST, "a name of at most 25 characters");
        let (length, name) = (name.len() as u8, name.to_vec());
        Line { flags: 1, names, length, name, stand: Stand::Selected(0) }
    }

    fn bytes(&self, lda: u32) -> [u8; ENTRY] {
        let mut bytes = [BEHIND; ENTRY];
        bytes[..ADDRESS].copy_from_slice(&self.flags.to_le_bytes());
        bytes[ADDRESS..LENGTH].copy_from_slice(&lda.to_le_bytes());
        bytes[LENGTH] = self.length;
        bytes[NAME..][..self.name.len()].copy_from_slice(&self.name);
        bytes
    }
}

impl Tree {
    /// The block in which a line is to stand.
    fn block(&self, line: &Line) -> u32 {
        let rule = Rule::lent(&self.rule).expect("the rule has 26 bytes or none");
        let hash = rule.hash(&line.name).unwrap_or(0);
        match line.stand {
            Stand::Selected(times) => hash + HASHES * times,
            Stand::Wrong => u32::from(hash == 0),
            Stand::Block(r) => r,
        }
    }

    /// Where each line of node i stands: its block, and its place there from 0 to 15.
    pub fn places(&self, i: usize) -> Vec<(u32, usize)> {
        let mut used: HashMap<u32, usize> = HashMap::new();
        let place = |line| {
            let mut r = self.block(line);
            while used.get(&r) == Some(&(DATA / ENTRY)) {
                r += HASHES;
            }
            let places = used.entry(r).or_insert(0);
            *places += 1;
            (r, *places - 1)
        };
        self.nodes[i].lines.iter().map(place).collect()
    }

    /// How many data blocks node i has.
    pub fn length(&self, i: usize) -> u32 {
        let needed = self.places(i).iter().map(|&(r, _)| r + 1).max();
        self.nodes[i].length.max(needed.unwrap_or(0))
    }

    /// How many blocks all nodes take; e-s must be more than that.
    pub fn blocks(&self) -> u32 {
        let file = |i| File { f: 0, last: self.length(i) as i32 - 1 };
        (0..self.nodes.len()).map(|i| file(i).blocks_in_use()).sum()
    }

    /// The data blocks of node i, one after another.
    fn data(&self, i: usize, drive: Drive, s: u32) -> Vec<u8> {
        let mut data = vec![0; DATA * self.length(i) as usize];
        for (line, (r, place)) in self.nodes[i].lines.iter().zip(self.places(i)) {
            let lda = match line.names {
                Names::Node(i) => drive.lda(s + 1 + i as u32),
                Names::Smudged(i) => drive.lda(s + 1 + i as u32) & !(1 << 31),
                Names::Block(k) => drive.lda(s + k),
                Names::Words(words) => words,
            };
            let at = DATA * r as usize + ENTRY * place;
            data[at..at + ENTRY].copy_from_slice(&line.bytes(lda));
        }
        data
    }
}

/// A sound partition that has the tree's nodes for files, and node 0 for root. Their blocks are
/// interleaved, as those of a scattered partition.
pub fn plant(tree: &Tree, drive: u32, n: u32, s: u32, e: u32) -> Vec<u8> {
    let mut image = fresh(drive, n, s, e);
    let known = Drive::numbered(drive).expect("the drive is 0 to 3");
    let nodes = 0..tree.nodes.len();
    for (f, node) in (s + 1..).zip(&tree.nodes) {
        let kind = (f - s - 1) as u16;
        let mut description = named(format!("node {kind}").as_bytes());
        description[2 * SORT..][..2].copy_from_slice(&node.sort.to_le_bytes());
        done(create(&mut image, drive, s, kind, u32::MAX));
        done(describe(&mut image, drive, s, f, &description, u32::MAX));
    }
    let data: Vec<Vec<u8>> = nodes.clone().map(|i| tree.data(i, known, s)).collect();
    let lengths: Vec<u32> = nodes.map(|i| tree.length(i)).collect();
    let mut grown = vec![0; lengths.len()];
    for i in growth(&lengths, 0) {
        let (f, r) = (s + 1 + i as u32, grown[i]);
        let block = &data[i][DATA * r as usize..][..DATA];
        done(write(&mut image, drive, s, f, r, block, u32::MAX));
        grown[i] += 1;
    }
    set_root(&mut image, s, known.lda(s + 1));
    image
}

fn done(answer: Answer) {
    assert!(answer.outcome == DONE, "the tree fits: {answer:?}");
}

/// RootDirectoryID becomes these two words.
pub fn set_root(image: &mut [u8], s: u32, lda: u32) {
    let at = RECORD * s as usize + HEADER + 2 * ROOT_DIRECTORY;
    image[at..at + 4].copy_from_slice(&lda.to_le_bytes());
}
