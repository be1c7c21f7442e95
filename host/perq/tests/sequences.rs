//! Random sequences of changing calls, every limit of each, on fresh and on scattered partitions, with reserved bits in
//! every LDA at first or without; the whole image is compared with the reference's after every call.

use reference::sample::{fresh, Rng};
use reference::{DONE, REFUSED};
use trials::big;
use trials::both::Both;
use trials::call::{Call, Name};
use trials::cuts::every_limit;
use trials::damage::damage;
use trials::draw::{self, candidates};
use trials::images::{shuffled, some_lengths, Place};
use trials::low_bits;
use trials::settings::{cases, rng, rounds};
use trials::tally::Tally;

/// Writes are what builds up a partition, so they are drawn most.
const WEIGHTED: [Name; 12] = [
    Name::Create,
    Name::Create,
    Name::Write,
    Name::Write,
    Name::Write,
    Name::Write,
    Name::Write,
    Name::Write,
    Name::Describe,
    Name::Destroy,
    Name::Destroy,
    Name::Repair,
];

/// A small partition with its place, fresh or scattered.
fn start(rng: &mut Rng) -> (Place, Vec<u8>) {
    let most = [20, 20, 20, 20, 150, 150, 400][rng.below(7) as usize];
    let n = 4 + rng.below(most);
    let place = Place { drive: rng.below(4), n, s: 1 + rng.below(2), e: n - 1 };
    let image = match rng.below(3) {
        0 => fresh(place.drive, n, place.s, place.e),
        _ => shuffled(&place, &some_lengths(&place, 4, rng), rng),
    };
    (place, low_bits::perhaps(image, &place, rng))
}

/// One step: a random call under every limit; then it is made whole, or cut and mended by a repair that may itself be
/// cut first. Answers how many calls that were.
fn step(both: &mut Both, place: &Place, rng: &mut Rng, tally: &mut Tally) -> u64 {
    let files = candidates(both.image(), place);
    let call = draw::call(&WEIGHTED, both.image(), place, &files, rng);
    let before = both.clone();
    let answer = every_limit(both, &call);
    tally.add(&call, answer);
    let calls = u64::from(answer.made) + 3;
    if rng.below(4) > 0 {
        return calls;
    }
    *both = before;
    both.call(&call.with_limit(rng.below(answer.made + 1)));
    let repair = place.call(Name::Repair);
    for _ in 0..rng.below(3) {
        both.call(&repair.clone().with_limit(rng.below(place.n)));
    }
    let mended = both.call(&repair);
    let fine = both.call(&place.call(Name::Check));
    assert!(mended.outcome == REFUSED || fine.outcome == DONE, "{mended:?}, {fine:?}");
    calls + 4
}

#[test]
fn random_sequences() {
    let (mut rng, mut tally, mut calls) = (rng(20), Tally::default(), 0);
    let enough = cases(150_000);
    while calls < enough {
        let (place, image) = start(&mut rng);
        let mut both = Both::new(image);
        for _ in 0..40 {
            calls += step(&mut both, &place, &mut rng, &mut tally);
            if rng.below(60) == 0 {
                let mut damaged = both.image().to_vec();
                damage(&mut damaged, &place, &mut rng);
                both = Both::new(damaged);
            }
        }
    }
    for name in [Name::Create, Name::Write, Name::Describe, Name::Destroy] {
        tally.must_have_all(&[name]);
    }
}

/// Random calls on big files, each cut anywhere, and now and then a repair.
#[test]
fn random_sequences_on_big_files() {
    let (mut rng, mut tally) = (rng(22), Tally::default());
    for _ in 0..rounds(150_000, 10_000) / 5 {
        let (place, image) = big::some(&mut rng);
        let mut both = Both::new(low_bits::perhaps(image, &place, &mut rng));
        for _ in 0..25 {
            let files = candidates(both.image(), &place);
            let call = draw::call(&WEIGHTED, both.image(), &place, &files, &mut rng);
            let answer = both.call(&Call { drive: place.drive, ..call.clone() });
            tally.add(&call, answer);
            if rng.below(4) == 0 {
                both.call(&place.call(Name::Repair));
            }
        }
    }
    assert!(tally.times(Name::Write, 0) > 50, "{tally:?}");
}

/// On a sound partition no whole call leaves it unsound.
#[test]
fn whole_calls_keep_a_partition_sound() {
    let mut rng = rng(21);
    for _ in 0..cases(40_000) / 100 {
        let (place, image) = start(&mut rng);
        let mut both = Both::new(image);
        for _ in 0..100 {
            let files = candidates(both.image(), &place);
            let call = draw::call(&WEIGHTED, both.image(), &place, &files, &mut rng);
            // A repair for another drive would take all files for free blocks.
            both.call(&Call { drive: place.drive, limit: u32::MAX, ..call });
            assert_eq!(both.call(&place.call(Name::Check)).outcome, DONE);
        }
    }
}
