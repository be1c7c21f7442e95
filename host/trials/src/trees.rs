//! Images with directories to make calls on: random trees, each in a partition of its own.

use crate::images::Place;
use crate::low_bits;
use reference::random_tree::random_tree;
use reference::sample::Rng;
use reference::tree_sample::{plant, Tree};

/// A sound partition that holds a tree.
#[derive(Clone, Debug)]
pub struct Planted {
    pub tree: Tree,
    pub place: Place,
    pub image: Vec<u8>,
}

/// A random tree on any drive, in fewer than 400 blocks: mostly of a few levels, at times of 8 to 11, where the tenth is met.
pub fn some_tree(rng: &mut Rng) -> Planted {
    let levels = match rng.below(3) {
        0 => 8 + rng.below(4),
        _ => 1 + rng.below(4),
    };
    tree_of(levels, rng)
}

/// The same with a chain of so many directories, the root among them.
pub fn tree_of(levels: u32, rng: &mut Rng) -> Planted {
    planted(random_tree(rng, levels), rng)
}

/// A tree on any drive, with some room before, in and behind its partition; at times with reserved bits in every LDA.
pub fn planted(tree: Tree, rng: &mut Rng) -> Planted {
    let (drive, s) = (rng.below(4), 1 + rng.below(20));
    let e = s + tree.blocks() + 1 + rng.below(10);
    let place = Place { drive, n: e + 1 + rng.below(10), s, e };
    let image = low_bits::perhaps(plant(&tree, drive, place.n, s, e), &place, rng);
    Planted { tree, place, image }
}
