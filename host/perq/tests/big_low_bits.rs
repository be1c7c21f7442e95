//! Reserved bits in the LDAs of a double index say nothing, stay in an address that stays, and are zero in a new one.

use reference::image::{NEXT, PREVIOUS};
use reference::DONE;
use trials::big::{self, FILE, SHORT};
use trials::both::Both;
use trials::call::{Call, Name};
use trials::cuts::every_limit;
use trials::images::{set_pair, Place};
use trials::low_bits::{spots, Twins, LOW};
use trials::settings::rng;
use trials::sweep;

/// A partition with a big file and five free blocks, without reserved bits and with some in every LDA.
fn twins(length: u32) -> (Place, Twins) {
    let place = big::place(length % 3, length, 5);
    let twins = Twins::of(big::image(&place, length), &place, &mut rng(95));
    // Four addresses of the partition's own block, two of each file's besides its index, and one for each block in an index.
    let entries = big::in_use(length) - 1 + big::in_use(SHORT) - 1;
    assert_eq!(twins.spots.len() as u32, 4 + 2 * 2 + entries);
    (place, twins)
}

/// How many LDAs of the image after a call are new. The others have the bits that they had, and these have none.
fn new_addresses(twins: &Twins, after: &[u8], place: &Place) -> usize {
    let mut new = 0;
    for spot in spots(after, place) {
        let (was, is) = (spot.get(&twins.laid), spot.get(after));
        let stays = twins.spots.binary_search(&spot).is_ok() && was & !LOW == is & !LOW;
        assert_eq!(is & LOW, if stays { was & LOW } else { 0 }, "the LDA at {spot:?}");
        new += usize::from(!stays);
    }
    new
}

/// Makes a call on both, under every limit with the bits laid; answers how many LDAs are new.
fn called(twins: &Twins, place: &Place, call: &Call) -> usize {
    let (mut clean, mut laid) = (Both::new(twins.clean.clone()), Both::new(twins.laid.clone()));
    let answer = every_limit(&mut laid, call);
    assert_eq!((answer.outcome, answer), (DONE, clean.call(call)));
    twins.must_still_be(clean.image(), laid.image());
    sweep::must_be_sound(&mut laid, place);
    new_addresses(twins, laid.image(), place)
}

#[test]
fn reading() {
    for length in [4_161, 4_290, 20_546] {
        let (place, twins) = twins(length);
        let (mut clean, mut laid) = (Both::new(twins.clean), Both::new(twins.laid));
        for r in sweep::edges(length) {
            let show = place.call(Name::Show).with_file(FILE).with_block(r);
            assert_eq!(clean.call(&show), laid.call(&show));
        }
        let check = place.call(Name::Check);
        assert_eq!(clean.call(&check), laid.call(&check));
        sweep::file(&mut laid, &place, FILE);
    }
}

#[test]
fn appends() {
    // New are the data block's entry, the last address and FreeHead; with a pointer block its entry and the last negative
    // address; with -2 or -3 the entry of the file's own block.
    for (r, new) in [(4_159, 3), (4_160, 6), (4_161, 3), (4_288, 5), (20_544, 6), (20_672, 5)] {
        let (place, twins) = twins(r);
        assert_eq!(called(&twins, &place, &place.write(FILE, r, 9)), new, "append of {r}");
    }
}

#[test]
fn describe_replace_and_destroy() {
    let (place, twins) = twins(20_546);
    assert_eq!(called(&twins, &place, &place.describe(FILE, "letter")), 0);
    assert_eq!(called(&twins, &place, &place.write(FILE, 20_544, 9)), 0);
    // FreeTail; the addresses of the file are no more.
    assert_eq!(called(&twins, &place, &place.destroy(FILE)), 1);
}

#[test]
fn repair() {
    for length in [4_290, 20_546] {
        let (place, twins) = twins(length);
        let mut both = Both::new(twins.laid.clone());
        both.edit(|image| {
            (place.s + 1..=place.e).for_each(|b| {
                set_pair(image, b, NEXT, 0xDEAD_BEEF);
                set_pair(image, b, PREVIOUS, b);
            });
        });
        assert_eq!(both.call(&place.call(Name::Repair)).outcome, DONE);
        sweep::must_be_sound(&mut both, &place);
        assert_eq!(new_addresses(&twins, both.image(), &place), 0);
    }
}
