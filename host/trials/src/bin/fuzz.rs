//! fuzz SECONDS: random calls on random and damaged images for so long. The library is lent memory with a trap on either
//! side, and every answer, image and buffer is compared with the reference's. The run is one test: its last line is
//! '1 passed, 0 failed'. A difference ends it, and TAPERMOSS_SEED starts it again from the same round.

use reference::random_tree::random_tree;
use reference::sample::Rng;
use reference::Answer;
use std::env;
use std::fs::File;
use std::os::unix::fs::FileExt;
use std::time::{Duration, Instant, SystemTime, UNIX_EPOCH};
use trials::big;
use trials::both::told;
use trials::call::{on_library_lent, on_reference, Call, Lent, Name};
use trials::damage::damage;
use trials::draw::{self, candidates};
use trials::guard::{Guarded, Side};
use trials::images::{set_pair, shuffled, some_lengths, Place, DATA_WORD};
use trials::low_bits;
use trials::tally::Tally;
use trials::trees::{some_tree, Planted};

const RECORD: usize = 528;
/// The records of an image without a big file, and of any.
const FEW_RECORDS: usize = 420;
const MOST_RECORDS: usize = 21_000;
/// The calls on an image, and on one with a big file.
const CALLS: u32 = 30;
const FEW_CALLS: u32 = 5;

/// Mostly a sound partition with some damage, at times bytes of no meaning under a good partition block. One in four has
/// directories, one in 200 a big file, one in three reserved bits in every LDA.
fn some_image(rng: &mut Rng) -> Planted {
    let mut planted = match rng.below(4) {
        _ if big::is_due(rng) => some_big_file(rng),
        0 => some_tree(rng),
        _ => some_files(rng),
    };
    planted.image = low_bits::perhaps(planted.image, &planted.place, rng);
    let Planted { place, ref mut image, .. } = planted;
    for _ in 0..rng.below(4) {
        damage(image, &place, rng);
    }
    if rng.below(20) == 0 {
        rng.fill(image);
        set_pair(image, place.s, DATA_WORD + 118, place.lda(place.s));
        set_pair(image, place.s, DATA_WORD + 120, place.lda(place.e));
    }
    planted
}

/// A sound partition without directories; the tree that comes with it is of another one.
fn some_files(rng: &mut Rng) -> Planted {
    let most = if rng.below(10) == 0 { FEW_RECORDS as u32 } else { 30 };
    let n = 3 + rng.below(most - 3);
    let place = Place { drive: rng.below(4), n, s: 1, e: n - 1 };
    let image = shuffled(&place, &some_lengths(&place, 5, rng), rng);
    Planted { tree: random_tree(rng, 1), place, image }
}

/// The same with a big file.
fn some_big_file(rng: &mut Rng) -> Planted {
    let (place, image) = big::some(rng);
    Planted { tree: random_tree(rng, 1), place, image }
}

/// The memory that the library is lent, one piece for each slice that a call can take.
struct Room {
    image: Guarded,
    repaired: Guarded,
    rule: Guarded,
    path: Guarded,
    buffer: Guarded,
}

impl Room {
    fn new() -> Room {
        let new = || Guarded::new(RECORD * MOST_RECORDS);
        Room { image: new(), repaired: new(), rule: new(), path: new(), buffer: new() }
    }

    /// Makes a call on the library in guarded memory and on the reference, and compares; answers what both answered. Both
    /// images are left changed.
    fn compare(&mut self, call: &Call, image: &mut [u8], repaired: &[u8], rng: &mut Rng) -> Answer {
        let side = if rng.below(2) == 0 { Side::Start } else { Side::End };
        let lent = self.image.lend(image, side);
        let buffer = self.buffer.lend(&call.buffer, side);
        let second = self.repaired.lend(repaired, side);
        let (rule, path) = (self.rule.lend(&call.rule, side), self.path.lend(&call.path, side));
        let slices = Lent { image: lent, repaired: second, rule, path, buffer };
        let ours = on_library_lent(call, slices);
        let mut expected = call.buffer.clone();
        let theirs = on_reference(call, image, repaired, &mut expected);
        assert_eq!(ours, theirs, "the answers to {}", told(call));
        assert!(lent == image && second == repaired, "the images after {}", told(call));
        assert!(rule == call.rule && path == call.path, "rule and path after {}", told(call));
        assert!(*buffer == *expected, "the buffers after {}", told(call));
        ours
    }
}

/// One image and some calls on it, one after the other; once in a while its length is that of no image. Answers how many
/// calls these were.
fn round(names: &[Name], room: &mut Room, tally: &mut Tally, rng: &mut Rng) -> u64 {
    let Planted { tree, place, mut image } = some_image(rng);
    let mut repaired = image.clone();
    damage(&mut repaired, &place, rng);
    let length = match rng.below(30) {
        0 => rng.below(image.len() as u32) as usize,
        _ => image.len(),
    };
    let calls = if place.n > 4_160 { FEW_CALLS } else { CALLS };
    for _ in 0..calls {
        let files = candidates(&image, &place);
        let call = draw::aimed(draw::call(names, &image, &place, &files, rng), &tree, rng);
        let answer = room.compare(&call, &mut image[..length], &repaired, rng);
        tally.add(&call, answer);
    }
    u64::from(calls)
}

fn main() {
    let seconds =
        env::args().nth(1).and_then(|text| text.parse().ok()).expect("usage: fuzz SECONDS");
    let clock =
        SystemTime::now().duration_since(UNIX_EPOCH).map_or(0, |time| time.as_nanos() as u64);
    let first: u64 =
        env::var("TAPERMOSS_SEED").ok().and_then(|text| text.parse().ok()).unwrap_or(clock);
    let names: Vec<Name> = Name::all().collect();
    let (mut room, mut tally, start) = (Room::new(), Tally::default(), Instant::now());
    println!("fuzz: {} calls for {seconds} seconds", names.len());
    let note = File::create("build/fuzz.seed")
        .expect("build/ is there: this runs at the top of the repository");
    let (mut rounds, mut calls): (u64, u64) = (0, 0);
    while start.elapsed() < Duration::from_secs(seconds) {
        let seed = first.wrapping_add(rounds);
        // Written before the round, so that a trap leaves it behind as well.
        note.write_all_at(format!("{seed:20}\n").as_bytes(), 0)
            .expect("build/fuzz.seed is written");
        calls += round(&names, &mut room, &mut tally, &mut Rng::new(seed));
        rounds += 1;
    }
    assert!(rounds > 0, "in {seconds} seconds no call is made");
    println!("fuzz: {calls} calls on {rounds} images, all as the reference has them");
    let described = [0, 12].map(|outcome| tally.times(Name::Describe, outcome));
    println!("fuzz: {} files described, {} names refused", described[0], described[1]);
    println!("1 passed, 0 failed");
}
