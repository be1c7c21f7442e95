//! Twins: an image without reserved bits in any LDA, and the same with some in each. Every call has the same answer on both,
//! and after any calls they differ in nothing but those bits, which are there still wherever an address names its block still.

mod common;

use common::{block, led, listed, small, DRIVE, S};
use perq::{Refusal, Target};
use reference::image::{RELATIVE, ROOT_DIRECTORY};
use reference::inspect::file_blocks;
use reference::sample::{scattered, Rng};
use trials::both::{told, Both};
use trials::call::{Call, Name};
use trials::damage::damage;
use trials::draw::{self, candidates};
use trials::images::{pair, set_pair, shuffled, some_lengths, word, Place, DATA_WORD};
use trials::low_bits::{spots, Twins, LOW};
use trials::settings::{cases, rng, rounds};
use trials::tally::Tally;
use trials::trees::{some_tree, Planted};

/// A sound partition with directories, or one without and the tree of another.
fn some_image(rng: &mut Rng) -> Planted {
    let planted = some_tree(rng);
    if rng.below(3) == 0 {
        return planted;
    }
    let most = [20, 20, 20, 150, 230][rng.below(5) as usize];
    let n = 4 + rng.below(most);
    let place = Place { drive: rng.below(4), n, s: 1 + rng.below(2), e: n - 1 };
    let image = shuffled(&place, &some_lengths(&place, 4, rng), rng);
    Planted { place, image, ..planted }
}

/// The two images, each on the library and on the reference, and how they were at first.
struct Pair {
    place: Place,
    at_first: Twins,
    clean: Both,
    laid: Both,
}

impl Pair {
    fn new(image: Vec<u8>, place: Place, rng: &mut Rng) -> Pair {
        let at_first = Twins::of(image, &place, rng);
        let (clean, laid) = (Both::new(at_first.clean.clone()), Both::new(at_first.laid.clone()));
        Pair { place, at_first, clean, laid }
    }

    /// Makes a call on both; `repaired` are the second images of a pair.
    fn call(&mut self, call: &Call, repaired: &Twins, tally: &mut Tally) {
        let before = (self.clean.image().to_vec(), self.laid.image().to_vec());
        let (answer, bytes) = self.clean.call_with(call, &repaired.clean);
        let (same, others) = self.laid.call_with(call, &repaired.laid);
        assert_eq!(answer, same, "the twins answer otherwise to {}", told(call));
        tally.add(call, answer);
        if !self.shows_bits(call) {
            assert!(bytes == others, "the twins leave other buffers after {}", told(call));
        }
        self.at_first.must_still_be(self.clean.image(), self.laid.image());
        self.must_keep(&before.0, &before.1, call);
    }

    /// Whether a call reads the bytes of a file into which bits were laid, a directory.
    fn shows_bits(&self, call: &Call) -> bool {
        if !matches!(call.name, Name::Read | Name::Extract) {
            return false;
        }
        let (image, spots) = (self.clean.image(), &self.at_first.spots);
        let blocks = file_blocks(image, self.place.drive, self.place.s, call.f).unwrap_or_default();
        let mut data = blocks.into_iter().filter(|&b| (word(image, b, RELATIVE) as i16) >= 0);
        data.any(|b| spots.iter().any(|spot| spot.b == b))
    }

    /// Where an LDA names what it named before the call, it has the bits that it had.
    fn must_keep(&self, clean: &[u8], laid: &[u8], call: &Call) {
        let still = spots(self.clean.image(), &self.place);
        for spot in spots(clean, &self.place) {
            let stays = spot.get(clean) == spot.get(self.clean.image());
            if stays && still.binary_search(&spot).is_ok() {
                let now = spot.get(self.laid.image());
                assert_eq!(now, spot.get(laid), "the LDA at {spot:?} after {}", told(call));
            }
        }
    }
}

/// So many random calls out of `names`, on an image and its twin.
fn some_calls(names: &[Name], count: u32, rng: &mut Rng, tally: &mut Tally) {
    let Planted { tree, place, image } = some_image(rng);
    let mut other = image.clone();
    damage(&mut other, &place, rng);
    let repaired = Twins::of(other, &place, rng);
    let mut pair = Pair::new(image, place, rng);
    for _ in 0..count {
        let files = candidates(pair.clean.image(), &place);
        let call = draw::call(names, pair.clean.image(), &place, &files, rng);
        pair.call(&draw::aimed(call, &tree, rng), &repaired, tally);
        if rng.below(12) == 0 {
            pair = Pair::new(pair.laid.image().to_vec(), place, rng);
        }
    }
}

#[test]
fn every_reading_call_answers_alike() {
    let (mut rng, mut tally) = (rng(80), Tally::default());
    for _ in 0..cases(60_000) / 60 {
        some_calls(&Name::READING, 60, &mut rng, &mut tally);
    }
    assert!(Name::READING.iter().all(|&name| tally.times(name, 0) > 100));
}

#[test]
fn every_sequence_of_calls_leaves_twins() {
    let (mut rng, mut tally) = (rng(81), Tally::default());
    let names: Vec<Name> = Name::CHANGING.into_iter().chain([Name::Write; 5]).collect();
    for _ in 0..rounds(30_000, 60) {
        some_calls(&names, 60, &mut rng, &mut tally);
    }
    assert!(Name::CHANGING.iter().all(|&name| tally.times(name, 0) > 100));
}

/// The partition of the small tree.
fn place_of_small() -> Place {
    let n = (small().len() / perq::RECORD) as u32;
    Place { drive: DRIVE.number(), n, s: S, e: n - 2 }
}

/// So many LDAs has a partition, and in all of them bits are laid, none elsewhere.
fn must_lay(image: Vec<u8>, place: &Place, count: usize) {
    let Twins { clean, laid, spots } = Twins::of(image, place, &mut rng(83));
    assert!(spots.iter().all(|spot| spot.get(&clean) & LOW == 0 && spot.get(&laid) & LOW != 0));
    let differing = clean.iter().zip(&laid).filter(|(one, other)| one != other).count();
    assert_eq!((spots.len(), differing), (count, count));
}

#[test]
fn bits_are_laid_into_every_lda() {
    // The partition's own block has five with a root and four without, a file's last two addresses are two, and the rest is
    // its index, pointer blocks included. The small tree has four lines that name a file, in directories of one block each.
    must_lay(small(), &place_of_small(), 5 + 4 * 2 + (1 + 1 + 2) + 4);
    for drive in 0..4 {
        let place = Place { drive, n: 300, s: 3, e: 297 };
        let image = scattered(drive, place.n, place.s, place.e, &[0, 3, 65, 193], 1);
        must_lay(image, &place, 4 + 4 * 2 + 3 + (65 + 1) + (193 + 2));
    }
    // 34 pointer blocks, and -2 over the last two.
    let place = Place { drive: 0, n: 4_400, s: 3, e: 4_390 };
    let image = scattered(place.drive, place.n, place.s, place.e, &[4_300], 1);
    must_lay(image, &place, 4 + 2 + (4_300 + 34 + 1));
}

#[test]
fn directories_are_read_alike() {
    let twins = Twins::of(small(), &place_of_small(), &mut rng(82));
    let root = pair(&twins.laid, S, DATA_WORD + ROOT_DIRECTORY);
    assert_ne!(root & LOW, 0);
    for path in ["", "notes", "Sub", "Sub>deep.pas", "Sub>Gone", "Last", "None", "Notes>X"] {
        assert_eq!(led(&twins.clean, path), led(&twins.laid, path), "{path}");
    }
    assert_eq!(led(&twins.laid, "Sub>Deep.Pas"), Ok(Some(Target::File(block(3)))));
    let tree = listed(&twins.laid, 9).expect("a tree");
    assert_eq!(tree, listed(&twins.clean, 9).expect("a tree"));
    assert_eq!(tree.rows.len(), 5);
    let mut rootless = twins.laid;
    set_pair(&mut rootless, S, DATA_WORD + ROOT_DIRECTORY, root & LOW);
    assert_eq!(led(&rootless, ""), Err(Refusal::NoFile));
}
