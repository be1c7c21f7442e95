//! Bits 0-7 of an LDA's low word are reserved: what they are says nothing, and calls keep them. Here they are laid into every
//! LDA of a partition, so that what the calls make of it can be compared with what they make of the image as it was.

use crate::draw::candidates;
use crate::images::{block_at, indexed, named, pair, set_pair, word, Place, DATA_WORD};
use crate::images::{entry_addresses, fib_addresses, pointer_addresses, PIB_ADDRESSES};
use crate::sweep;
use reference::directory::{DIRECTORY, SORT};
use reference::image::ROOT_DIRECTORY;
use reference::index::{Level, LAST_RELATIVE};
use reference::sample::Rng;

/// The reserved bits of an address.
pub const LOW: u32 = 0xFF;

/// A place that holds an LDA: a block, and the first of two words in it, header words counted.
#[derive(Clone, Copy, Debug, PartialEq, Eq, PartialOrd, Ord)]
pub struct Spot {
    pub b: u32,
    pub at: usize,
}

impl Spot {
    pub fn get(&self, image: &[u8]) -> u32 {
        pair(image, self.b, self.at)
    }

    /// Puts these bits in the place of the reserved ones.
    pub fn set_bits(&self, image: &mut [u8], bits: u32) {
        let lda = self.get(image) & !LOW | bits;
        set_pair(image, self.b, self.at, lda);
    }
}

/// The blocks of a level that a file's index names, as far as its length goes; an indirect or double entry of the file's
/// own block is looked at beyond that too.
fn blocks(image: &[u8], place: &Place, f: u32, level: Level) -> Vec<u32> {
    let needed = level.count(sweep::length(image, f).min(LAST_RELATIVE + 1));
    let count = if level == Level::Data { needed } else { needed.max(level.in_fib()) };
    (0..count).filter_map(|at| indexed(image, place, f, level.relative(at))).collect()
}

/// Where the LDAs of a partition stand that name a block of the drive: in its first block, in files' own blocks and their
/// pointer blocks, and in the entries of directories.
pub fn spots(image: &[u8], place: &Place) -> Vec<Spot> {
    let mut spots = Vec::new();
    let mut add = |b: u32, words: &mut dyn Iterator<Item = usize>| {
        spots.extend(words.map(|word| Spot { b, at: DATA_WORD + word }));
    };
    add(place.s, &mut PIB_ADDRESSES.into_iter());
    let root = block_at(image, place, place.s, ROOT_DIRECTORY);
    for f in candidates(image, place) {
        add(f, &mut fib_addresses());
        for b in
            [Level::Pointer, Level::Double].map(|level| blocks(image, place, f, level)).concat()
        {
            add(b, &mut pointer_addresses());
        }
        if root == Some(f) || word(image, f, DATA_WORD + SORT) == DIRECTORY {
            for b in blocks(image, place, f, Level::Data) {
                add(b, &mut entry_addresses());
            }
        }
    }
    spots.retain(|spot| named(place, spot.get(image)).is_some());
    spots.sort_unstable();
    spots.dedup();
    spots
}

/// Lays random bits, at least one, into the LDA at each of these places.
fn lay(image: &mut [u8], spots: &[Spot], rng: &mut Rng) {
    spots.iter().for_each(|spot| spot.set_bits(image, 1 + rng.below(LOW)));
}

/// The image with bits laid into every LDA of a partition.
pub fn laid(mut image: Vec<u8>, place: &Place, rng: &mut Rng) -> Vec<u8> {
    let spots = spots(&image, place);
    lay(&mut image, &spots, rng);
    image
}

/// The same of one image in three; the others stay as they are.
pub fn perhaps(image: Vec<u8>, place: &Place, rng: &mut Rng) -> Vec<u8> {
    match rng.below(3) {
        0 => laid(image, place, rng),
        _ => image,
    }
}

/// An image as it is, and with bits laid into every LDA of a partition.
pub fn both_ways(image: Vec<u8>, place: &Place, rng: &mut Rng) -> [Vec<u8>; 2] {
    [image.clone(), laid(image, place, rng)]
}

/// An image twice: without reserved bits in any LDA of a partition, and with some in each.
pub struct Twins {
    pub clean: Vec<u8>,
    pub laid: Vec<u8>,
    /// Where the LDAs stand.
    pub spots: Vec<Spot>,
}

impl Twins {
    pub fn of(image: Vec<u8>, place: &Place, rng: &mut Rng) -> Twins {
        let spots = spots(&image, place);
        let (mut clean, mut laid) = (image.clone(), image);
        spots.iter().for_each(|spot| spot.set_bits(&mut clean, 0));
        lay(&mut laid, &spots, rng);
        Twins { clean, laid, spots }
    }

    /// The two after the same calls differ in nothing but bits that were laid, in addresses that are as they were.
    ///
    /// # Panics
    /// If they differ in more.
    pub fn must_still_be(&self, clean: &[u8], laid: &[u8]) {
        let mut cleaned = laid.to_vec();
        for spot in self.spots.iter().filter(|spot| spot.get(clean) != spot.get(laid)) {
            let at_first = (spot.get(&self.clean), spot.get(&self.laid));
            assert_eq!((spot.get(clean), spot.get(laid)), at_first, "the LDA at {spot:?}");
            spot.set_bits(&mut cleaned, 0);
        }
        assert!(cleaned == clean, "the twins differ in more than reserved bits");
    }
}
