//! Reading from damaged images: every field that a rule reads, records out of place, and bytes of no meaning at all.

use reference::image::{RECORD, RELATIVE};
use reference::inspect::file_blocks;
use reference::sample::{blank, Rng};
use reference::tree_sample::Tree;
use trials::big;
use trials::both::Both;
use trials::call::Name;
use trials::damage::{self, Field};
use trials::draw::{self, candidates};
use trials::images::{is_pointer, set_pair, set_word, shuffled, some_lengths, Place, DATA_WORD};
use trials::low_bits;
use trials::settings::{cases, long_run, rng};
use trials::sweep;
use trials::tally::Tally;
use trials::trees::{some_tree, Planted};

/// A partition with an empty file, a short one, and one each with one and with two pointer blocks; without reserved bits in
/// its LDAs, and with some in each.
fn base(drive: u32, rng: &mut Rng) -> (Place, [Vec<u8>; 2]) {
    let place = Place { drive, n: 300, s: 3, e: 297 };
    let image = shuffled(&place, &[0, 2, 65, 193], rng);
    (place, low_bits::both_ways(image, &place, rng))
}

/// Puts every likely value into each of these fields of block b, one at a time, and looks at the whole partition and at
/// file f each time.
fn try_fields(both: &mut Both, place: &Place, b: u32, f: u32, fields: &[Field]) {
    let files = candidates(both.image(), place);
    for &field in fields {
        let old = damage::get(both.image(), b, field);
        for value in damage::values(both.image(), place, b, field) {
            both.edit(|image| damage::set(image, b, field, value));
            sweep::partition(both, place, &files[..1]);
            sweep::file(both, place, f);
        }
        both.edit(|image| damage::set(image, b, field, old));
    }
}

/// The drives to go through: one, by turns, in the short run.
fn drives(turn: u32) -> Vec<u32> {
    match long_run() {
        true => (0..4).collect(),
        false => vec![turn % 4],
    }
}

#[test]
fn each_field_of_a_file_block() {
    for drive in drives(0) {
        let (place, images) = base(drive, &mut rng(10));
        for image in images {
            let files = candidates(&image, &place);
            let mut both = Both::new(image);
            for f in files {
                try_fields(&mut both, &place, f, f, &damage::fib_fields());
            }
        }
    }
}

#[test]
fn each_field_of_the_partition_block() {
    for drive in 0..4 {
        let (place, images) = base(drive, &mut rng(11));
        for image in images {
            let f = candidates(&image, &place)[0];
            try_fields(&mut Both::new(image), &place, place.s, f, &damage::pib_fields());
        }
    }
}

#[test]
fn each_field_of_a_header() {
    for drive in drives(2) {
        let (place, images) = base(drive, &mut rng(12));
        for image in images {
            let files = candidates(&image, &place);
            let mut both = Both::new(image);
            let step = if long_run() { 1 } else { 5 };
            for b in (place.s..=place.e).step_by(step).chain(files.iter().copied()) {
                try_fields(&mut both, &place, b, files[3], &damage::header_fields());
            }
        }
    }
}

#[test]
fn each_entry_of_a_pointer_block() {
    for drive in drives(1) {
        let (place, images) = base(drive, &mut rng(13));
        for image in images {
            let files = candidates(&image, &place);
            let long = files.into_iter().max_by_key(|&f| sweep::length(&image, f)).expect("files");
            let own = file_blocks(&image, drive, place.s, long).expect("sound");
            let pointers: Vec<u32> = own.into_iter().filter(|&b| is_pointer(&image, b)).collect();
            let mut both = Both::new(image);
            for b in pointers {
                try_fields(&mut both, &place, b, long, &damage::pointer_fields());
            }
        }
    }
}

/// A few random reading calls on an image, aimed at its tree if it has one; a pair's second image is the same one, damaged
/// once more.
fn some_calls(
    image: Vec<u8>,
    place: &Place,
    tree: Option<&Tree>,
    count: u32,
    rng: &mut Rng,
    tally: &mut Tally,
) {
    let files = candidates(&image, place);
    let mut repaired = image.clone();
    damage::damage(&mut repaired, place, rng);
    let mut both = Both::new(image);
    for _ in 0..count {
        let mut call = draw::call(&Name::READING, both.image(), place, &files, rng);
        if let Some(tree) = tree {
            call = draw::aimed(call, tree, rng);
        }
        let (answer, _) = both.call_with(&call, &repaired);
        tally.add(&call, answer);
    }
}

/// Files without directories, now and then a big one.
fn some_files(rng: &mut Rng) -> (Place, Vec<u8>) {
    if big::is_due(rng) {
        return big::some(rng);
    }
    let n = 4 + rng.below(120);
    let place = Place { drive: rng.below(4), n, s: 1 + rng.below(2), e: n - 1 };
    let lengths = some_lengths(&place, 5, rng);
    (place, shuffled(&place, &lengths, rng))
}

#[test]
fn random_damage() {
    let (mut rng, mut tally) = (rng(14), Tally::default());
    for _ in 0..cases(60_000) / 20 {
        let (place, mut image, tree) = match rng.below(4) {
            0 => {
                let Planted { tree, place, image } = some_tree(&mut rng);
                (place, image, Some(tree))
            }
            _ => {
                let (place, image) = some_files(&mut rng);
                (place, image, None)
            }
        };
        image = low_bits::perhaps(image, &place, &mut rng);
        for _ in 0..rng.below(4) {
            damage::damage(&mut image, &place, &mut rng);
        }
        some_calls(image, &place, tree.as_ref(), 20, &mut rng, &mut tally);
    }
    tally.must_have_all(&Name::READING);
}

/// Random records under a good partition block: now and then a file block, with entries that name blocks.
fn plausible(place: &Place, rng: &mut Rng) -> Vec<u8> {
    let mut image = blank(place.drive, place.n, place.s, place.e);
    for b in place.s + 1..=place.e {
        let (file, to) = (place.any_block(rng), place.any_block(rng));
        set_pair(&mut image, b, 0, place.pda(if rng.below(2) == 0 { b } else { file }));
        set_word(&mut image, b, RELATIVE, (rng.below(4) as i32 - 1) as u16);
        set_pair(&mut image, b, 4, if rng.below(4) == 0 { 0 } else { place.pda(to) });
        let last = rng.below(3);
        for entry in 0..last {
            let at = DATA_WORD + 52 + 2 * entry as usize;
            set_pair(&mut image, b, at, place.lda(place.any_block(rng)));
        }
        set_word(&mut image, b, DATA_WORD + 249, 1 + last as u16);
        set_word(&mut image, b, DATA_WORD + 250, (last as i32 - 1) as u16);
        set_pair(&mut image, b, DATA_WORD + 251, place.lda(if last == 0 { b } else { to }));
        set_word(&mut image, b, DATA_WORD + 253, 65_535);
        set_pair(&mut image, b, DATA_WORD + 254, place.lda(b));
    }
    for at in [0, 2] {
        set_pair(&mut image, place.s, DATA_WORD + at, place.lda(place.any_block(rng)));
    }
    set_word(&mut image, place.s, DATA_WORD + 4, rng.below(8) as u16);
    image
}

#[test]
fn random_records_in_a_good_partition() {
    let (mut rng, mut tally) = (rng(15), Tally::default());
    for _ in 0..cases(40_000) / 10 {
        let place = Place::whole(rng.below(4), 3 + rng.below(12));
        let image = low_bits::perhaps(plausible(&place, &mut rng), &place, &mut rng);
        some_calls(image, &place, None, 10, &mut rng, &mut tally);
    }
}

#[test]
fn random_bytes() {
    let (mut rng, mut tally) = (rng(16), Tally::default());
    for _ in 0..cases(40_000) / 10 {
        let place = Place::whole(rng.below(4), 3 + rng.below(30));
        let mut image = vec![0; RECORD * place.n as usize + rng.below(3) as usize];
        rng.fill(&mut image);
        if rng.below(2) == 0 {
            set_pair(&mut image, place.s, DATA_WORD + 118, place.lda(place.s));
            set_pair(&mut image, place.s, DATA_WORD + 120, place.lda(place.e));
        }
        some_calls(image, &place, None, 10, &mut rng, &mut tally);
    }
}

#[test]
fn check_and_next_file_on_every_pair_of_swapped_and_copied_records() {
    let mut rng = rng(17);
    for drive in 0..4 {
        let place = Place { drive, n: 14, s: 1, e: 13 };
        let image = shuffled(&place, &[2, 0, 3], &mut rng);
        for image in low_bits::both_ways(image, &place, &mut rng) {
            swap_and_copy(&image, &place);
        }
    }
}

/// Copies each record over each other one, and then has the two change places.
fn swap_and_copy(image: &[u8], place: &Place) {
    let files = candidates(image, place);
    for one in 1..14 {
        for other in 1..14 {
            let mut both = Both::new(image.to_vec());
            let (from, to) = (RECORD * one, RECORD * other);
            both.edit(|image| image.copy_within(from..from + RECORD, to));
            sweep::partition(&mut both, place, &files);
            both.edit(|copy| copy[from..from + RECORD].copy_from_slice(&image[to..to + RECORD]));
            sweep::partition(&mut both, place, &files);
            both.call(&place.call(Name::Show).with_file(files[0]));
        }
    }
}
