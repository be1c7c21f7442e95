//! Nothing is lost: on partitions of eight records every call is cut after every store, the repair that follows is cut
//! after every store too, and then finished. Every file is as before the call or, the one that was named and only once
//! the deciding store was made, as after it.

use perq::{Drive, ALL};
use reference::sample::{fresh, Rng};
use reference::REFUSED;
use std::collections::HashSet;
use trials::both::Both;
use trials::call::{Call, Name};
use trials::cuts::plan;
use trials::images::Place;
use trials::low_bits;
use trials::settings::{cases, rng};
use trials::table::{table, table_after, File};

/// Every call that does something in this state. What is written differs from what was there.
fn every_call(files: &[File], place: &Place) -> Vec<Call> {
    let mut calls = vec![place.create(0x8001)];
    for file in files {
        let of = |name| place.call(name).with_file(file.f);
        let blocks = file.bytes.len() / 512;
        for r in 0..=blocks {
            let byte = file.bytes.get(512 * r).map_or(1, |byte| byte % 2 + 1);
            calls.push(of(Name::Write).with_block(r as u32).with_buffer(&[byte; 512]));
        }
        let (new, bad) = match file.description[23] {
            b'a' => ("b>a", "b>..>a"),
            _ => ("a", ""),
        };
        calls.extend([new, bad].map(|name| place.describe(file.f, name)));
        calls.push(of(Name::Destroy));
    }
    calls
}

/// Finishes a repair in every way: at once, and after being cut at each store and at one more; all end alike.
fn repaired(both: &Both, place: &Place, rng: &mut Rng) -> Vec<u8> {
    let repair = place.call(Name::Repair);
    let mut at_once = both.clone();
    assert_eq!(at_once.call(&repair).outcome, 0, "the repair is not refused");
    let stores = place.e - place.s + 1;
    for limit in 0..=stores {
        let mut cut = both.clone();
        cut.call(&repair.clone().with_limit(limit));
        cut.call(&repair.clone().with_limit(rng.below(stores + 1)));
        cut.call(&repair);
        assert!(cut.image() == at_once.image(), "a repair cut after {limit} ends otherwise");
    }
    at_once.image().to_vec()
}

/// A refused call makes no store, whatever its limit; and repair finds every file as it was.
fn refused_under_every_limit(state: &[u8], before: &[File], call: &Call, place: &Place) {
    for limit in [0, 1, 2, u32::MAX] {
        let mut both = Both::new(state.to_vec());
        let answer = both.call(&call.clone().with_limit(limit));
        assert!(answer.outcome == REFUSED && both.image() == state, "{answer:?} under {limit}");
        both.call(&place.call(Name::Repair));
        assert!(table(both.image(), place) == before, "{:?} was refused", call.name);
    }
}

/// Every cut of one call. Answers the image after the whole call, none if it was refused.
fn try_call(
    state: &[u8],
    before: &[File],
    call: &Call,
    place: &Place,
    rng: &mut Rng,
) -> Option<Vec<u8>> {
    let plan = plan(call, state);
    let mut whole = Both::new(state.to_vec());
    let answer = whole.call(call);
    if answer.outcome != 0 {
        let only = if call.name == Name::Describe { 12 } else { 8 };
        assert_eq!(answer.number, only, "a bad name or a full partition: {answer:?}");
        refused_under_every_limit(state, before, call, place);
        return None;
    }
    let after = table_after(before, call, answer.a);
    assert_eq!(table(whole.image(), place), after);
    for cut in 0..=plan.stores.len() {
        let mut both = Both::new(state.to_vec());
        both.call(&call.clone().with_limit(cut as u32));
        let found = table(&repaired(&both, place, rng), place);
        let expected = if cut > plan.deciding { &after } else { before };
        assert!(found == *expected, "{:?} cut after {cut}: {found:?}", call.name);
    }
    Some(whole.image().to_vec())
}

/// Tries so many states that calls lead to from a fresh partition, picked at random among those reached; one in three has
/// bits laid into all its LDAs first.
fn explore(place: &Place, states: u64, rng: &mut Rng) {
    let fresh = fresh(place.drive, place.n, place.s, place.e);
    let mut reached = low_bits::both_ways(fresh, place, rng).to_vec();
    let mut known: HashSet<Vec<u8>> = reached.iter().cloned().collect();
    for _ in 0..states {
        if reached.is_empty() {
            return;
        }
        let state = reached.swap_remove(rng.below(reached.len() as u32) as usize);
        let state = low_bits::perhaps(state, place, rng);
        let before = table(&state, place);
        for call in every_call(&before, place) {
            if let Some(next) = try_call(&state, &before, &call, place, rng) {
                if known.insert(next.clone()) {
                    reached.push(next);
                }
            }
        }
    }
}

#[test]
fn every_cut_of_every_call_and_of_the_repair_after_it() {
    let mut rng = rng(50);
    for drive in 0..4 {
        explore(&Place::whole(drive, 8), cases(60_000) / 200, &mut rng);
    }
}

#[test]
fn the_same_on_the_smallest_partitions() {
    let mut rng = rng(51);
    for drive in 0..4 {
        for n in 3..7 {
            explore(&Place::whole(drive, n), cases(20_000) / 200, &mut rng);
        }
    }
}

/// The worked example: the append of block 1 cut after 0, 1 or 2 stores leaves one block, after 3, 4 or 5 two.
#[test]
fn the_worked_example() {
    let drive = Drive::Shugart12;
    let mut image = fresh(0, 8, 1, 7);
    perq::create(&mut image, drive, 1, 0, ALL).expect("room");
    perq::write(&mut image, drive, 1, 2, 0, &[1; 512], ALL).expect("room");
    for cut in 0..=5 {
        let mut copy = image.clone();
        assert_eq!(perq::write(&mut copy, drive, 1, 2, 1, &[2; 512], cut), Ok(cut));
        perq::repair(&mut copy, drive, 1, ALL).expect("files are well formed");
        let blocks = perq::whole_file(&copy, drive, 1, 2).expect("a file").len() / 512;
        let free = reference::inspect::free_chain(&copy, 0, 1).expect("sound");
        let expected: (usize, &[u32]) = if cut < 3 { (1, &[4, 5, 6, 7]) } else { (2, &[5, 6, 7]) };
        assert_eq!((blocks, free.as_slice()), expected, "cut after {cut}");
    }
}
