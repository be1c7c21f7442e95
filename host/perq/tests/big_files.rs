//! Big files, those with a double index: what the calls make of them at every length at which the index changes its form, and
//! in the largest partition. The numbers expected are request 4's, and every call is made on the reference too.

use perq::Drive;
use reference::inspect::{file_blocks, free_chain};
use reference::sample::content;
use reference::{Answer, ABSENT, DONE};
use trials::big::{self, FILE, LENGTHS, LONGEST, OTHER, SEED, SHORT};
use trials::both::Both;
use trials::call::{Call, Name};
use trials::cuts::{every_limit, stored};
use trials::images::{indexed, set_pair, Place};
use trials::sweep;
use trials::tally::is_refusal;

/// A partition with a big file and so many free blocks; the hard drives take turns.
fn sample(length: u32, free: u32) -> (Place, Both) {
    let place = big::place(length % 3, length, free);
    (place, Both::new(big::image(&place, length)))
}

fn check(both: &mut Both, place: &Place) -> Answer {
    both.call(&place.call(Name::Check))
}

/// A sound partition with so many files, blocks owned and blocks free.
fn sound(files: u32, owned: u32, free: u32) -> Answer {
    Answer { a: files, b: owned, c: free, ..Answer::default() }
}

/// An append of the data that the sample has.
fn append(place: &Place, r: u32) -> Call {
    place.write(FILE, r, 0).with_buffer(&content(SEED, 0, r))
}

/// The block at each of these places of the big file is its own, absent, or refused by 7, read and shown.
fn must_read(both: &mut Both, place: &Place, length: u32, blocks: impl IntoIterator<Item = u32>) {
    for r in blocks {
        let on_file = |name| place.call(name).with_file(FILE).with_block(r);
        let read = on_file(Name::Read).with_buffer(&[0xA5; 512]);
        let (answer, buffer) = both.call_with(&read, &[]);
        let shown = both.call(&on_file(Name::Show));
        assert_eq!((shown.outcome, shown.number), (answer.outcome, answer.number));
        if r < length {
            let part = &both.image()[shown.a as usize..][..shown.b as usize];
            assert_eq!(answer.outcome, DONE, "block {r} of {length}");
            assert!(buffer == content(SEED, 0, r) && buffer == part, "block {r} of {length}");
        } else if r <= 32_766 {
            assert_eq!((answer.outcome, &buffer[..]), (ABSENT, &[0; 512][..]), "{r} of {length}");
        } else {
            assert!(is_refusal(answer, 7), "block {r} of {length}");
        }
    }
}

#[test]
fn check_read_and_show() {
    for length in LENGTHS {
        let (place, mut both) = sample(length, 5);
        let owned = big::in_use(length) + big::in_use(SHORT);
        assert_eq!(check(&mut both, &place), sound(2, owned, 5));
        sweep::partition(&mut both, &place, &[FILE, OTHER]);
        must_read(&mut both, &place, length, sweep::edges(length));
        sweep::file(&mut both, &place, FILE);
        sweep::whole_file(&mut both, &place, OTHER);
    }
}

#[test]
fn extract_is_every_block() {
    let (place, mut both) = sample(4_290, 1);
    sweep::whole_file(&mut both, &place, FILE);
    let length = 20_546;
    let (place, mut both) = sample(length, 1);
    let whole = place.call(Name::Extract).with_file(FILE);
    let buffer = vec![0xA5; 512 * length as usize];
    let (answer, bytes) = both.call_with(&whole.clone().with_buffer(&buffer), &[]);
    assert_eq!(answer, Answer { a: length, ..Answer::default() });
    assert!((0..).zip(bytes.chunks(512)).all(|(r, block)| block == content(SEED, 0, r)));
    must_read(&mut both, &place, length, (0..length).step_by(499));
    for short in [&buffer[512..], &[]] {
        assert!(is_refusal(both.call(&whole.clone().with_buffer(short)), 3));
    }
}

#[test]
fn describe_and_replace() {
    for length in [4_161, 4_289, 20_545] {
        let (place, mut both) = sample(length, 1);
        let describe = place.describe(FILE, "letter");
        assert_eq!(every_limit(&mut both, &describe).made, 1);
        assert!(is_refusal(every_limit(&mut both, &place.describe(FILE, "letter>")), 12));
        let reader = place.call(Name::Description).with_file(FILE).with_buffer(&[0; 104]);
        assert_eq!(both.call_with(&reader, &[]).1, describe.buffer);
        for r in [63, 4_159, length - 1] {
            let block = indexed(both.image(), &place, FILE, r as i32);
            let call = place.write(FILE, r, 9);
            assert_eq!(stored(&mut both.image().to_vec(), &call), [block.expect("it has one")]);
            assert_eq!(both.call(&call).made, 1);
        }
        let owned = big::in_use(length) + big::in_use(SHORT);
        assert_eq!(check(&mut both, &place), sound(2, owned, 1));
    }
}

/// Where a file grows: r, and the relative numbers of its blocks that are stored before its own block, the new ones first.
const APPENDS: [(u32, &[i32]); 9] = [
    (4_158, &[4_158, -35, 4_157]),
    (4_159, &[4_159, -35, 4_158]),
    (4_160, &[4_160, -36, -2, -4, 4_159, -35]),
    (4_161, &[4_161, -36, 4_160]),
    (4_288, &[4_288, -37, -2, 4_287, -36]),
    (20_543, &[20_543, -163, 20_542]),
    (20_544, &[20_544, -164, -3, -4, -2, 20_543, -163]),
    (20_545, &[20_545, -164, 20_544]),
    (20_672, &[20_672, -165, -3, 20_671, -164]),
];

/// How many blocks an append takes: data is the first free one, a new pointer block the second, a new -2 or -3 the third.
fn taken(r: u32) -> u32 {
    big::in_use(r + 1) - big::in_use(r)
}

#[test]
fn the_stores_of_an_append_in_their_order() {
    for (r, relatives) in APPENDS {
        let (place, both) = sample(r, 5);
        let free = free_chain(both.image(), place.drive, place.s).expect("sound");
        let (new, mut image) = (taken(r) as usize, both.image().to_vec());
        let blocks = stored(&mut image, &append(&place, r));
        let own = |&relative| indexed(&image, &place, FILE, relative).expect("a block of it");
        let mut expected: Vec<u32> = relatives.iter().map(own).collect();
        assert_eq!(expected[..new], free[..new], "the blocks that {r} takes");
        expected.extend([FILE, free[new], place.s]);
        assert_eq!(blocks, expected, "append of block {r}");
    }
}

#[test]
fn a_file_that_grows_is_as_it_is_laid() {
    for (from, to) in [(4_157, 4_163), (4_286, 4_291), (20_542, 20_547)] {
        let place = big::place(to % 3, to, 5);
        let mut both = Both::new(big::image(&place, from));
        for r in from..to {
            assert_eq!(every_limit(&mut both, &append(&place, r)).outcome, DONE);
            for beyond in [r + 2, 32_766, 32_767] {
                assert!(is_refusal(both.call(&append(&place, beyond)), 7));
            }
        }
        assert!(both.image() == big::image(&place, to), "from {from} to {to} blocks");
    }
}

#[test]
fn full_is_one_free_block_more_than_the_append_takes() {
    for (r, takes) in [(4_159, 1), (4_160, 3), (4_161, 1), (4_288, 2), (20_544, 3), (20_672, 2)] {
        assert_eq!(taken(r), takes);
        for free in 1..=takes + 1 {
            let (place, mut both) = sample(r, free);
            assert!(is_refusal(both.call(&append(&place, r + 1)), 7));
            let fits = free > takes;
            let answer = both.call(&append(&place, r));
            assert_eq!(is_refusal(answer, 8), !fits, "block {r} with {free} free: {answer:?}");
            let left = if fits { 1 } else { free };
            assert_eq!(check(&mut both, &place).c, left);
        }
    }
}

#[test]
fn destroy_chains_the_blocks_in_their_order() {
    for (length, most_negative) in [(4_160, -35), (4_161, -36), (20_544, -163), (20_545, -164)] {
        let (place, mut both) = sample(length, 5);
        let own = file_blocks(both.image(), place.drive, place.s, FILE).expect("a file");
        let ends = [most_negative, length as i32 - 1]
            .map(|relative| indexed(both.image(), &place, FILE, relative).expect("its ends"));
        assert_eq!([own[0], own[own.len() - 1]], ends);
        let stores = stored(&mut both.image().to_vec(), &place.destroy(FILE));
        assert_eq!(stores, [FILE, ends[0], ends[1], place.e, place.s]);
        assert_eq!(every_limit(&mut both, &place.destroy(FILE)).made, 5);
        let owned = big::in_use(SHORT);
        assert_eq!(check(&mut both, &place), sound(1, owned, 5 + big::in_use(length)));
        let free = free_chain(both.image(), place.drive, place.s).expect("sound");
        assert!(free[5..] == own, "the free chain after {length} blocks are destroyed");
    }
}

/// What show of a pair answers to each block of the big file that matters: the image that answers, and from where on.
fn shown(original: &[u8], repaired: &[u8], place: &Place) -> Vec<Answer> {
    let mut both = Both::new(original.to_vec());
    let show = |r| place.call(Name::ShowPair).with_file(FILE).with_block(r);
    sweep::edges(4_290).into_iter().map(|r| both.call_with(&show(r), repaired).0).collect()
}

#[test]
fn show_of_a_pair() {
    let place = big::place(2, 4_290, 200);
    let (one, other) = (big::image(&place, 4_290), big::image(&place, 4_161));
    let answers = |image: &[u8], c| {
        let show = |r| reference::show(image, place.drive, place.s, FILE, r);
        let answers = sweep::edges(4_290).into_iter().map(show);
        answers.map(|answer| Answer { c, ..answer }).collect::<Vec<Answer>>()
    };
    let spoilt = |image: &[u8]| {
        let (mut spoilt, double) = (image.to_vec(), indexed(image, &place, FILE, -2));
        set_pair(&mut spoilt, double.expect("it has -2"), 0, 0);
        spoilt
    };
    let beyond = |answer: &Answer| is_refusal(*answer, 7);
    for (original, repaired) in [(&one, &other), (&other, &one)] {
        // Blocks that no file can have are refused by both, and then it is the original's refusal.
        let own = answers(original, 2);
        let expected: Vec<Answer> = answers(repaired, 1)
            .into_iter()
            .zip(&own)
            .map(|(repaired, own)| if beyond(&repaired) { *own } else { repaired })
            .collect();
        assert_eq!(shown(original, repaired, &place), expected);
        assert_eq!(shown(original, &spoilt(repaired), &place), own);
        let refused = shown(&spoilt(original), &spoilt(repaired), &place);
        assert!(refused.iter().all(|&answer| is_refusal(answer, 4) && answer.block == FILE));
    }
}

#[test]
fn the_longest_file() {
    let (place, image) = big::longest(2, LONGEST - 1);
    let mut both = Both::new(image);
    assert_eq!(check(&mut both, &place), sound(1, 32_764, 2));
    assert_eq!(both.call(&append(&place, LONGEST - 1)).made, 6);
    assert!(both.image() == big::longest(2, LONGEST).1);
    assert_eq!(check(&mut both, &place), sound(1, 32_765, 1));
    for (r, number) in [(LONGEST, 8), (LONGEST + 1, 7), (32_766, 7), (32_767, 7)] {
        assert!(is_refusal(both.call(&append(&place, r)), number));
    }
    assert!(is_refusal(both.call(&place.create(1)), 8));
    must_read(&mut both, &place, LONGEST, sweep::edges(LONGEST));
    let bytes = perq::whole_file(both.image(), Drive::Micropolis35, 1, FILE).expect("a file");
    assert!((0..).zip(bytes.chunks(512)).all(|(r, block)| block == content(SEED, 0, r)));
    assert_eq!(both.call(&place.call(Name::Repair)).made, 32_767);
    assert_eq!(check(&mut both, &place), sound(1, 32_765, 1));
    assert_eq!(both.call(&place.destroy(FILE)).made, 5);
    assert_eq!(check(&mut both, &place), sound(0, 0, 32_766));
}
