//! Repair: of an all-zero partition, after every cut of every call, and cut itself at every store and started again.

use reference::sample::{blank, fresh};
use trials::both::Both;
use trials::call::{Call, Name};
use trials::cuts::{every_limit, plan};
use trials::draw::{self, candidates};
use trials::images::{pair, set_pair, shuffled, some_lengths, Place, DATA_WORD};
use trials::low_bits::{self, Twins};
use trials::settings::{cases, rng};
use trials::sweep::must_be_sound;

fn repair(place: &Place) -> Call {
    place.call(Name::Repair)
}

#[test]
fn an_all_zero_partition_becomes_a_fresh_one() {
    for drive in 0..4 {
        for (n, s, e) in [(3, 1, 2), (8, 1, 7), (400, 9, 390)] {
            let place = Place { drive, n, s, e };
            let twins = Twins::of(blank(drive, n, s, e), &place, &mut rng(45));
            let [clean, laid] = [&twins.clean, &twins.laid].map(|image| {
                let mut both = Both::new(image.clone());
                let answer = every_limit(&mut both, &repair(&place));
                assert_eq!((answer.outcome, answer.made), (0, e - s + 1));
                both.image().to_vec()
            });
            assert!(clean == fresh(drive, n, s, e), "drive {drive}, blocks {s} to {e}");
            twins.must_still_be(&clean, &laid);
        }
    }
}

#[test]
fn a_repaired_partition_stays_as_it_is() {
    let mut rng = rng(40);
    for drive in 0..4 {
        let place = Place { drive, n: 300, s: 3, e: 297 };
        let image = shuffled(&place, &[0, 2, 65, 193], &mut rng);
        for image in low_bits::both_ways(image, &place, &mut rng) {
            let mut both = Both::new(image);
            both.call(&repair(&place));
            must_be_sound(&mut both, &place);
            let once = both.image().to_vec();
            both.call(&repair(&place));
            assert!(both.image() == once, "a second repair changes nothing");
        }
    }
}

#[test]
fn unused_entries_of_the_last_pointer_block_become_nil() {
    let mut rng = rng(41);
    let place = Place { drive: 2, n: 300, s: 3, e: 297 };
    let mut both = Both::new(shuffled(&place, &[70, 64], &mut rng));
    let files = candidates(both.image(), &place);
    let own = files.iter().find_map(|&f| {
        let blocks = reference::inspect::file_blocks(both.image(), 2, 3, f)?;
        (blocks.len() > 70).then(|| blocks[0])
    });
    let pointer = own.expect("the longer file has a pointer block");
    let lda = place.lda(files[0]);
    both.edit(|image| set_pair(image, pointer, DATA_WORD + 2 * 6, lda));
    assert_eq!(both.call(&Call::new(Name::Check, 2, 3)).number, 5);
    every_limit(&mut both, &repair(&place));
    assert_eq!(pair(both.image(), pointer, DATA_WORD + 2 * 6), 0);
    must_be_sound(&mut both, &place);
}

/// Cuts a repair at every store, starts it again, and wants what one repair at once makes.
fn cut_everywhere(both: &Both, place: &Place) {
    let mut at_once = both.clone();
    every_limit(&mut at_once, &repair(place));
    must_be_sound(&mut at_once, place);
    for limit in 0..=place.e - place.s + 1 {
        let mut again = both.clone();
        again.call(&repair(place).with_limit(limit));
        again.call(&repair(place));
        assert!(
            again.image() == at_once.image(),
            "a repair cut after {limit} stores and started again"
        );
    }
}

#[test]
fn a_repair_cut_at_every_store_and_started_again() {
    let mut rng = rng(42);
    for _ in 0..cases(20_000) / 100 {
        let n = 5 + rng.below(30);
        let place = Place { drive: rng.below(4), n, s: 1 + rng.below(2), e: n - 1 };
        let image = shuffled(&place, &some_lengths(&place, 3, &mut rng), &mut rng);
        let mut both = Both::new(low_bits::perhaps(image, &place, &mut rng));
        let files = candidates(both.image(), &place);
        let names = [Name::Create, Name::Write, Name::Destroy];
        let call = draw::call(&names, both.image(), &place, &files, &mut rng);
        let stores = plan(&call, both.image()).stores.len() as u32;
        both.call(&call.with_limit(rng.below(stores + 1)));
        cut_everywhere(&both, &place);
    }
}

/// Links and the free chain are not looked at: a repair mends whatever they say.
#[test]
fn links_and_the_free_chain_may_be_anything() {
    let mut rng = rng(43);
    for _ in 0..cases(20_000) / 100 {
        let n = 5 + rng.below(60);
        let place = Place::whole(rng.below(4), n);
        let image = shuffled(&place, &some_lengths(&place, 3, &mut rng), &mut rng);
        let mut image = low_bits::perhaps(image, &place, &mut rng);
        for b in place.s + 1..=place.e {
            for at in [4, 6] {
                let value = [0, rng.number() as u32, place.pda(place.any_block(&mut rng))]
                    [rng.below(3) as usize];
                set_pair(&mut image, b, at, value);
            }
        }
        for at in [0, 2, 4] {
            let lda = place.lda(place.any_block(&mut rng)) | rng.below(256);
            let value = [rng.number() as u32, lda][rng.below(2) as usize];
            set_pair(&mut image, place.s, DATA_WORD + at, value);
        }
        let mut both = Both::new(image);
        assert_eq!(every_limit(&mut both, &repair(&place)).outcome, 0);
        must_be_sound(&mut both, &place);
    }
}

#[test]
fn a_large_partition_cut_in_the_middle() {
    for drive in 0..3 {
        let place = Place { drive, n: 6_000, s: 5, e: 5_990 };
        let image = shuffled(&place, &[4_160, 193, 0, 65], &mut rng(44));
        for image in low_bits::both_ways(image, &place, &mut rng(46)) {
            let mut both = Both::new(image);
            for limit in [0, 1, 2_000, 5_985, 5_986, 5_987] {
                let mut again = both.clone();
                again.call(&repair(&place).with_limit(limit));
                again.call(&repair(&place));
                must_be_sound(&mut again, &place);
            }
            both.call(&repair(&place));
            must_be_sound(&mut both, &place);
        }
    }
}
