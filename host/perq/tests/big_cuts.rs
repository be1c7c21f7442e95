//! Nothing of a big file is lost either: at each length at which the index changes its form the append is cut after every
//! store, and so is destroy; the repair that follows is cut too, and begun again. The big file is as before or as after, as
//! its own block's store decides, and the file beside it is as it was.

use reference::sample::{named, Rng};
use reference::DONE;
use trials::big::{self, FILE, LONGEST, OTHER};
use trials::both::Both;
use trials::call::{Call, Name};
use trials::cuts::plan;
use trials::images::Place;
use trials::settings::rng;
use trials::table::{table, table_after};

/// A big file and a short one, both described, and five free blocks; the hard drives take turns.
fn sample(length: u32) -> (Place, Vec<u8>) {
    let place = big::place(length % 3, length, 5);
    let mut image = big::image(&place, length);
    for (f, name) in [(FILE, "big"), (OTHER, "short")] {
        let text = named(name.as_bytes());
        let answer = reference::describe(&mut image, place.drive, place.s, f, &text, u32::MAX);
        assert_eq!(answer.made, 1);
    }
    (place, image)
}

/// The image that a repair leaves, made at once, and cut at two places and begun again.
fn repaired(both: &Both, place: &Place, rng: &mut Rng) -> Vec<u8> {
    let repair = place.call(Name::Repair);
    let stores = place.e - place.s + 1;
    let mut at_once = both.clone();
    let answer = at_once.call(&repair);
    assert_eq!((answer.outcome, answer.made), (DONE, stores));
    let mut again = both.clone();
    for _ in 0..2 {
        let limit = rng.below(stores);
        assert_eq!(again.call(&repair.clone().with_limit(limit)).made, limit);
    }
    again.call(&repair);
    assert!(again.image() == at_once.image(), "a repair that is cut twice ends otherwise");
    at_once.image().to_vec()
}

/// Every cut of a call on the big file.
fn cut_everywhere(before: &[u8], place: &Place, call: &Call, rng: &mut Rng) {
    let plan = plan(call, before);
    assert_eq!(plan.stores[plan.deciding].0, FILE, "the store that decides");
    let old = table(before, place);
    let new = table_after(&old, call, 0);
    for cut in 0..=plan.stores.len() {
        let mut both = Both::new(before.to_vec());
        assert_eq!(both.call(&call.clone().with_limit(cut as u32)).made, cut as u32);
        if cut == plan.stores.len() {
            assert!(table(both.image(), place) == new, "the whole {:?}", call.name);
        }
        let found = table(&repaired(&both, place, rng), place);
        let expected = if cut > plan.deciding { &new } else { &old };
        assert!(found == *expected, "{:?} of {} cut after {cut}", call.name, call.r);
    }
}

/// Every cut of the append of block r, which has so many stores.
fn cut_append(r: u32, stores: usize, rng: &mut Rng) {
    let (place, before) = sample(r);
    let call = place.write(FILE, r, 9);
    assert_eq!(plan(&call, &before).stores.len(), stores, "append of block {r}");
    cut_everywhere(&before, &place, &call, rng);
}

#[test]
fn appends_at_the_edges_of_minus_2() {
    let mut rng = rng(90);
    for r in [4_158, 4_159, 4_161, 4_162, 4_287, 4_289, 4_290] {
        cut_append(r, 6, &mut rng);
    }
    cut_append(4_160, 9, &mut rng);
    cut_append(4_288, 8, &mut rng);
}

#[test]
fn the_append_that_brings_minus_3() {
    cut_append(20_544, 10, &mut rng(91));
}

#[test]
fn appends_beside_it() {
    let mut rng = rng(92);
    for r in [20_543, 20_545, 20_546] {
        cut_append(r, 6, &mut rng);
    }
}

#[test]
fn the_last_append_of_the_longest_file() {
    let (place, before) = big::longest(2, LONGEST - 1);
    let call = place.write(FILE, LONGEST - 1, 9);
    cut_everywhere(&before, &place, &call, &mut rng(93));
}

#[test]
fn destroys() {
    let mut rng = rng(94);
    for length in [4_160, 4_161, 4_289, 20_545] {
        let (place, before) = sample(length);
        cut_everywhere(&before, &place, &place.destroy(FILE), &mut rng);
    }
}
