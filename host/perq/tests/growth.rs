//! The edges of the changing calls: where the index changes its form, where a partition is full, what a destroyed file
//! leaves behind, and blocks whose numbers need more than 16 bits.

use perq::{raw, Drive};
use reference::sample::{fresh, scattered, Rng};
use trials::both::Both;
use trials::call::{Call, Name};
use trials::cuts::{every_limit, stored};
use trials::draw::candidates;
use trials::images::{pair, shuffled, word, Place};
use trials::low_bits;
use trials::settings::rng;
use trials::sweep;
use trials::tally::is_refusal;

fn free_blocks(both: &mut Both, place: &Place) -> u32 {
    let answer = both.call(&place.call(Name::Check));
    assert_eq!(answer.outcome, raw::DONE, "{answer:?}");
    answer.c
}

#[test]
fn a_file_grows_from_nothing_across_two_pointer_blocks() {
    for drive in 0..4 {
        let place = Place { drive, n: 230, s: 2, e: 228 };
        let image = shuffled(&place, &[], &mut rng(30));
        grow_and_destroy(&mut Both::new(image.clone()), &place, |_| {});
        let mut rng = rng(33);
        grow_and_destroy(&mut Both::new(image), &place, |both| lay(both, &place, &mut rng));
    }
}

/// Lays other bits into every LDA.
fn lay(both: &mut Both, place: &Place, rng: &mut Rng) {
    *both = Both::new(low_bits::laid(both.image().to_vec(), place, rng));
}

/// A file of 200 blocks in a partition with room for 226, and gone again; something is done to the image before each append.
fn grow_and_destroy(both: &mut Both, place: &Place, mut before: impl FnMut(&mut Both)) {
    let f = every_limit(both, &place.create(0xFFFF)).a;
    for r in 0..200 {
        before(both);
        let answer = match r {
            0..=2 | 62..=66 | 190..=194 => every_limit(both, &place.write(f, r, r as u8)),
            _ => both.call(&place.write(f, r, r as u8)),
        };
        assert_eq!(answer.made, stores_of_an_append(r), "append of block {r}");
        let refused = both.call(&place.write(f, r + 2, 0));
        assert!(is_refusal(refused, 7), "{refused:?}");
    }
    assert_eq!(free_blocks(both, place), 226 - 1 - 200 - 2);
    sweep::whole_file(both, place, f);
    every_limit(both, &place.write(f, 130, 99));
    every_limit(both, &place.destroy(f));
    assert_eq!(free_blocks(both, place), 226);
}

/// Data, pointer block, old last block, old most negative block, FIB, new first free block, PIB.
fn stores_of_an_append(r: u32) -> u32 {
    let pointer_is_new = r >= 64 && (r - 64) % 128 == 0;
    4 + u32::from(r >= 64) + u32::from(r >= 1) + u32::from(pointer_is_new && r > 64)
}

#[test]
fn the_last_blocks_before_the_double_index() {
    for drive in 0..3 {
        for length in [4_030, 4_031, 4_032, 4_033, 4_158, 4_159] {
            let place = Place { drive, n: 4_300, s: 1, e: 4_299 };
            let image = scattered(drive, place.n, place.s, place.e, &[length], 3);
            for image in low_bits::both_ways(image, &place, &mut rng(34)) {
                let answer = every_limit(&mut Both::new(image), &place.write(2, length, 1));
                assert_eq!(answer.made, stores_of_an_append(length));
            }
        }
        let place = Place { drive, n: 4_300, s: 1, e: 4_299 };
        let mut both = Both::new(scattered(drive, place.n, place.s, place.e, &[4_160], 3));
        for r in [4_161, 4_162, 32_766, 32_767, u32::MAX] {
            assert!(is_refusal(both.call(&place.write(2, r, 1)), 7));
        }
        every_limit(&mut both, &place.write(2, 4_159, 1));
        every_limit(&mut both, &place.destroy(2));
        assert_eq!(free_blocks(&mut both, &place), 4_298);
    }
}

/// A partition with one file of `length` blocks and exactly `free` free ones, without reserved bits in its LDAs and with
/// some in each.
fn nearly_full(drive: u32, length: u32, free: u32) -> (Place, [Both; 2]) {
    let owned = 1 + length + length.saturating_sub(64).div_ceil(128);
    let place = Place { drive, n: owned + free + 2, s: 1, e: owned + free + 1 };
    let mut rng = rng(31);
    let image = shuffled(&place, &[length], &mut rng);
    (place, low_bits::both_ways(image, &place, &mut rng).map(Both::new))
}

#[test]
fn too_few_free_blocks_for_the_call_plus_one() {
    for drive in 0..4 {
        for (length, free, fits) in [
            (64, 1, false),
            (64, 2, false),
            (64, 3, true),
            (63, 1, false),
            (63, 2, true),
            (65, 1, false),
            (65, 2, true),
            (192, 2, false),
            (192, 3, true),
            (0, 1, false),
            (0, 2, true),
        ] {
            let (place, images) = nearly_full(drive, length, free);
            for both in images {
                let f = candidates(both.image(), &place)[0];
                let told = format!("block {length} with {free} free");
                let answer = every_limit(&mut both.clone(), &place.write(f, length, 7));
                assert_eq!(is_refusal(answer, 8), !fits, "{told}: {answer:?}");
                let answer = every_limit(&mut both.clone(), &place.create(0));
                assert_eq!(is_refusal(answer, 8), free < 2, "create, {told}: {answer:?}");
            }
        }
    }
}

#[test]
fn the_last_free_block_is_never_handed_out() {
    for drive in 0..4 {
        let place = Place::whole(drive, 90);
        let mut both = Both::new(fresh(drive, 90, 1, 89));
        let f = both.call(&place.create(1)).a;
        let full =
            (0..).find(|&r| is_refusal(both.call(&place.write(f, r, 1)), 8)).expect("it fills up");
        assert_eq!(full, 85, "85 blocks, a pointer block, the file's own and a free one are 88");
        assert_eq!(free_blocks(&mut both, &place), 1);
        assert!(is_refusal(both.call(&place.create(1)), 8));
        assert_eq!(both.call(&place.write(f, 84, 2)).made, 1, "replacing needs no block");
    }
}

/// Destroys a file of `length` blocks, and takes its first block for a new one while the old blocks still carry its serial.
fn destroy_and_use_again(both: &mut Both, place: &Place, length: u32) {
    let f = candidates(both.image(), place)[0];
    let stores = every_limit(both, &place.destroy(f)).made;
    let expected = 3 + u32::from(length > 64) + u32::from(length > 0);
    assert_eq!(stores, expected, "destroy of {length} blocks");
    let all = free_blocks(both, place);
    assert_eq!(all, place.e - place.s);
    // Files are made until the old first block comes up again; then it grows beside its own stale blocks.
    let mut made = Vec::new();
    while !made.contains(&f) && made.len() as u32 + 2 < all {
        made.push(every_limit(both, &place.create(5)).a);
    }
    for &file in &made {
        sweep::file(both, place, file);
    }
    if made.contains(&f) {
        every_limit(both, &place.write(f, 0, 1));
        every_limit(both, &place.write(f, 1, 2));
        sweep::whole_file(both, place, f);
        every_limit(both, &place.call(Name::Repair));
        every_limit(both, &place.destroy(f));
    }
    free_blocks(both, place);
}

#[test]
fn a_destroyed_file_leaves_stale_serials_and_its_block_is_used_again() {
    for drive in 0..4 {
        for length in [0, 1, 2, 64, 65, 192, 193, 200] {
            let (place, images) = nearly_full(drive, length, 2);
            images
                .into_iter()
                .for_each(|mut both| destroy_and_use_again(&mut both, &place, length));
        }
    }
}

#[test]
fn filler_of_micropolis_blocks_above_65535() {
    let n = Drive::Micropolis35.blocks();
    let place = Place { drive: Drive::Micropolis35.number(), n, s: 65_530, e: 65_560 };
    let mut both = Both::new(fresh(place.drive, n, place.s, place.e));
    let mut file = 0;
    for kind in 0..6 {
        file = both.call(&place.create(kind)).a;
    }
    assert_eq!(file, 65_536);
    assert_eq!(word(both.image(), 65_536, 3), 0, "the filler is the low half of 65,536");
    assert_eq!(word(both.image(), 65_537, 3), 1);
    both.call(&place.write(file, 0, 1));
    both.call(&place.write(file, 1, 1));
    both.call(&place.destroy(file));
    assert_eq!(word(both.image(), 65_538, 3), 3, "the last block takes FreeHead's: block 65,539");
    both.call(&place.call(Name::Repair));
    assert_eq!(word(both.image(), 65_560, 3), 0, "the first free block is 65,536");
    assert_eq!(free_blocks(&mut both, &place), 25);
}

#[test]
fn the_last_blocks_of_every_drive_change_as_the_others_do() {
    for drive in Drive::ALL {
        let n = drive.blocks();
        let place = Place { drive: drive.number(), n, s: n - 80, e: n - 1 };
        let mut both = Both::new(fresh(place.drive, n, place.s, place.e));
        let f = both.call(&place.create(3)).a;
        for r in 0..66 {
            both.call(&place.write(f, r, r as u8));
        }
        assert_eq!(free_blocks(&mut both, &place), 79 - 1 - 66 - 1);
        both.call(&place.destroy(f));
        both.call(&place.call(Name::Repair));
        assert_eq!(free_blocks(&mut both, &place), 79);
    }
}

#[test]
fn the_order_of_stores_of_the_worked_example() {
    let place = Place::whole(0, 8);
    let mut image = fresh(0, 8, 1, 7);
    let free = |image: &[u8]| reference::inspect::free_chain(image, 0, 1).expect("sound");
    assert_eq!(free(&image), [2, 3, 4, 5, 6, 7]);
    assert_eq!(stored(&mut image, &place.create(9)), [2, 3, 1]);
    assert_eq!(stored(&mut image, &place.write(2, 0, 10)), [3, 2, 4, 1]);
    assert_eq!(stored(&mut image, &place.write(2, 1, 11)), [4, 3, 2, 5, 1]);
    assert_eq!(free(&image), [5, 6, 7]);
    assert_eq!(stored(&mut image, &place.destroy(2)), [2, 4, 7, 1]);
    assert_eq!(free(&image), [5, 6, 7, 2, 3, 4]);
    assert_eq!(pair(&image, 2, 0), 0, "the serial of the file's own block is gone");
    assert_ne!(pair(&image, 3, 0), 0, "the inner block keeps it");
}

#[test]
fn descriptions_are_set_and_read_back() {
    let place = Place { drive: 1, n: 60, s: 4, e: 58 };
    let mut both = Both::new(shuffled(&place, &[3, 0], &mut rng(32)));
    for f in candidates(both.image(), &place) {
        let mut text: Vec<u8> = (0..104).map(|i| i as u8 ^ f as u8).collect();
        text[22..28].copy_from_slice(b"\x05>a>b.");
        let call = Call::new(Name::Describe, 1, 4).with_file(f).with_buffer(&text);
        assert_eq!(every_limit(&mut both, &call).made, 1);
        let reader = Call::new(Name::Description, 1, 4).with_file(f).with_buffer(&[0; 104]);
        assert_eq!(both.call_with(&reader, &[]).1, text);
    }
}
