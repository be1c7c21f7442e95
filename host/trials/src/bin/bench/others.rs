//! Extract beside memcpy, and tree, look_up and repair beside the reference.

use crate::measure::{least, ratio, row};
use crate::{DRIVE, SIZES};
use perq::raw;
use reference::sample::scattered;
use reference::tree_sample::{plant, Line, Names, Node, Stand, Tree};
use std::hint::black_box;
use trials::big;
use trials::shapes::Shape;

/// A partition whose only file, at block 2, has this length.
pub fn one_file(length: u32) -> Vec<u8> {
    let e = big::in_use(length) + 100;
    scattered(DRIVE, e + 1, 1, e, &[length], 1)
}

pub fn extracts() {
    for length in [64, 4_000, 32_000] {
        let image = one_file(length);
        let mut buffer = vec![0; 512 * length as usize];
        let mut copy = buffer.clone();
        let source = image[..buffer.len()].to_vec();
        assert_eq!(raw::extract(&image, DRIVE, 1, 2, &mut buffer).a, length);
        let mut again = buffer.clone();
        let mut ours = || {
            black_box(raw::extract(black_box(&image), DRIVE, 1, 2, &mut buffer));
        };
        let mut theirs = || {
            black_box(reference::extract(black_box(&image), DRIVE, 1, 2, &mut again));
        };
        let mut memcpy = || black_box(&mut copy).copy_from_slice(black_box(&source));
        let times =
            least([&mut ours, &mut theirs, &mut memcpy]).map(|time| time / f64::from(length) * 1e9);
        row("extract", &length.to_string(), times[0], "ns/block", "reference", times[1]);
        ratio(times[2] / times[0], "memcpy's speed");
    }
}

/// A root with 20 directories of 99 files each, 2,000 entries in all, in a partition of some 2,150 blocks.
pub fn two_thousand_entries() -> Vec<u8> {
    let line = |node: usize, i: usize| {
        let name = format!("Name{node:04}");
        Line { stand: Stand::Block(i as u32 / 16), ..Line::new(name.as_bytes(), Names::Node(node)) }
    };
    let mut nodes = vec![Node::directory((1..=20).map(|node| line(node, node - 1)).collect())];
    for directory in 0..20 {
        let files = (0..99).map(|i| line(21 + 99 * directory + i, i)).collect();
        nodes.push(Node::directory(files));
    }
    nodes.extend((0..1_980).map(|_| Node::file(0)));
    let tree = Tree { rule: Vec::new(), nodes };
    let e = tree.blocks() + 3;
    plant(&tree, DRIVE, e + 1, 1, e)
}

/// The last file of the last directory, so that both are looked through to the end.
pub const LAST_PATH: &[u8] = b"name0020>name2000";

pub fn directories() {
    let image = two_thousand_entries();
    let mut rows = vec![0; 32 * 2_000];
    let mut again = rows.clone();
    let answer = raw::tree(&image, DRIVE, 1, &[], &mut rows);
    assert_eq!((answer.a, answer.b), (2_000, 0), "the whole tree");
    assert_eq!(raw::look_up(&image, DRIVE, 1, &[], LAST_PATH).a, 2_002, "the last file");
    let mut ours = || {
        black_box(raw::tree(black_box(&image), DRIVE, 1, &[], &mut rows));
    };
    let mut theirs = || {
        black_box(reference::tree(black_box(&image), DRIVE, 1, &[], &mut again));
    };
    let [a, b] = least([&mut ours, &mut theirs]).map(|time| time / 2_000.0 * 1e9);
    row("tree, 2,000 entries", "", a, "ns/entry", "reference", b);
    let mut ours = || {
        black_box(raw::look_up(black_box(&image), DRIVE, 1, &[], LAST_PATH));
    };
    let mut theirs = || {
        black_box(reference::look_up(black_box(&image), DRIVE, 1, &[], LAST_PATH));
    };
    let [a, b] = least([&mut ours, &mut theirs]).map(|time| time * 1e9);
    row("look up of a path in it", "", a, "ns", "reference", b);
}

pub fn repairs() {
    for m in SIZES {
        let mut one = Shape::Long.image(DRIVE, m);
        let mut other = one.clone();
        let mut ours = || {
            black_box(raw::repair(black_box(&mut one), DRIVE, 1, u32::MAX));
        };
        let mut theirs = || {
            black_box(reference::repair(black_box(&mut other), DRIVE, 1, u32::MAX));
        };
        let [a, b] = least([&mut ours, &mut theirs]).map(|time| time / f64::from(m) * 1e9);
        assert!(one == other, "both repair alike");
        row("repair, files of 4,000", &m.to_string(), a, "ns/block", "reference", b);
    }
}
