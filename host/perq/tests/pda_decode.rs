//! Decoding of physical addresses against the reference, without a gap: all low words under every cylinder of a drive, and
//! all high words over every low word that a block's address has. Each block must come up once, and nothing else decode.

use perq::{raw, Drive};
use reference::DONE;
use std::collections::BTreeSet;
use trials::call::same_fields;

/// Each block that an address of these high and low words decodes to, by the library as by the reference.
///
/// # Panics
/// If an answer differs, if a block has another PDA than the one that decodes to it, or if it has two.
fn decoded(drive: Drive, highs: &BTreeSet<u32>, lows: &BTreeSet<u32>) -> Vec<u32> {
    let number = drive.number();
    let mut met = vec![false; drive.blocks() as usize];
    for pda in highs.iter().flat_map(|high| lows.iter().map(move |low| 65_536 * high + low)) {
        let answer = same_fields(raw::pda_to_lbn(number, pda));
        assert_eq!(answer, reference::pda_to_lbn(number, pda), "{pda:#x} on {drive:?}");
        if answer.outcome == DONE {
            assert_eq!(raw::lbn_to_pda(number, answer.a).a, pda, "block {} back", answer.a);
            let is_met = &mut met[answer.a as usize];
            assert!(!*is_met, "block {} twice, by {pda:#x} on {drive:?}", answer.a);
            *is_met = true;
        }
    }
    (0..drive.blocks()).filter(|&b| met[b as usize]).collect()
}

/// The high words of a drive's addresses and the next one, by document 01: cylinders to 579 on the Micropolis, to 76 on the
/// floppy, and none on the Shugart drives, whose whole address is the low word.
fn cylinders(drive: Drive) -> std::ops::RangeInclusive<u32> {
    match drive {
        Drive::Shugart12 | Drive::Shugart24 => 0..=1,
        Drive::Micropolis35 => 0..=580,
        Drive::Floppy => 0..=77,
    }
}

/// High words that are a cylinder's but for bits that a narrower number would lose, and the largest one.
fn far() -> impl Iterator<Item = u32> {
    (1..16).flat_map(|bit| [1 << bit, (1 << bit) + 5]).chain([65_535])
}

fn every_low_word(drive: Drive) {
    let highs = cylinders(drive).chain(far()).collect();
    let blocks = decoded(drive, &highs, &(0..65_536).collect());
    assert_eq!(blocks.len() as u32, drive.blocks(), "{drive:?}");
}

#[test]
fn every_low_word_under_every_cylinder_of_the_micropolis() {
    every_low_word(Drive::Micropolis35);
}

#[test]
fn every_low_word_under_every_cylinder_of_the_floppy() {
    every_low_word(Drive::Floppy);
}

#[test]
fn every_low_word_of_the_shugart_drives() {
    every_low_word(Drive::Shugart12);
    every_low_word(Drive::Shugart24);
}

/// The low words of the addresses of these blocks.
fn low_words(drive: Drive, blocks: impl Iterator<Item = u32>) -> BTreeSet<u32> {
    blocks.map(|b| reference::lbn_to_pda(drive.number(), b).a % 65_536).collect()
}

#[test]
fn every_high_word_over_every_low_word_of_a_block() {
    for drive in [Drive::Micropolis35, Drive::Floppy] {
        let lows = low_words(drive, 0..drive.blocks());
        let blocks = decoded(drive, &(0..65_536).collect(), &lows);
        assert_eq!(blocks.len() as u32, drive.blocks(), "{drive:?}");
    }
    // On the Shugart drives every block has a low word of its own: the first block, the last, and some between.
    for drive in [Drive::Shugart12, Drive::Shugart24] {
        let some: Vec<u32> = (0..drive.blocks()).step_by(997).chain([drive.blocks() - 1]).collect();
        let lows = low_words(drive, some.iter().copied());
        assert_eq!(decoded(drive, &(0..65_536).collect(), &lows), some, "{drive:?}");
    }
}
