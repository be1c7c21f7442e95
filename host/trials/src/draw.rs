//! Random calls on an image, near enough to what it holds that every outcome comes up.

use crate::call::{Call, Group, Name};
use crate::images::{is_candidate, Place};
use crate::low_bits::LOW;
use crate::sweep;
use reference::directory::LONGEST;
use reference::file::DESCRIPTION;
use reference::image::DATA;
use reference::random_tree::random_path;
use reference::sample::{random_name, Rng};
use reference::tree::ROW;
use reference::tree_sample::Tree;

fn choose(from: &[u32], rng: &mut Rng) -> u32 {
    from[rng.below(from.len() as u32) as usize]
}

/// The right number, or once in a while one of the others.
fn mostly(right: u32, others: &[u32], rng: &mut Rng) -> u32 {
    match rng.below(30) {
        0 => choose(others, rng),
        _ => right,
    }
}

/// The blocks that say they are files' own.
pub fn candidates(image: &[u8], place: &Place) -> Vec<u32> {
    (place.s + 1..=place.e).filter(|&b| is_candidate(image, place, b)).collect()
}

/// How many blocks file f says it has; none for a block that is not there.
fn length(image: &[u8], place: &Place, f: u32) -> u32 {
    match f < place.n {
        true => sweep::length(image, f),
        false => 0,
    }
}

fn file(place: &Place, files: &[u32], rng: &mut Rng) -> u32 {
    match rng.below(12) {
        0 => choose(&[0, place.s, place.e + 1, place.n, u32::MAX, rng.number() as u32], rng),
        1 => place.any_block(rng),
        _ if files.is_empty() => place.any_block(rng),
        _ => choose(files, rng),
    }
}

fn block(length: u32, rng: &mut Rng) -> u32 {
    const SHORT: [u32; 10] = [0, 63, 64, 65, 191, 192, 193, 65_535, 65_536, u32::MAX];
    const LONG: [u32; 8] = [4_159, 4_160, 4_287, 4_288, 20_543, 20_544, 32_766, 32_767];
    match rng.below(8) {
        0 => choose(if rng.below(2) == 0 { &SHORT } else { &LONG }, rng),
        1 => length + 1,
        2..=4 => length,
        _ => rng.below(length + 1),
    }
}

fn buffer(right: usize, rng: &mut Rng) -> Vec<u8> {
    let length = match rng.below(25) {
        0 => choose(&[0, 1, 103, 104, 105, 511, 512, 513, 1_024], rng) as usize,
        1 => right + 1,
        2 => right.saturating_sub(1),
        _ => right,
    };
    let mut bytes = vec![0; length];
    rng.fill(&mut bytes);
    bytes
}

/// The buffer of a call, mostly of the right length; a description that is lent has a name, good in about every second.
fn lent(name: Name, length: u32, rng: &mut Rng) -> Vec<u8> {
    let bytes = buffer(right_buffer(name, length, rng), rng);
    match name {
        Name::Describe | Name::Name if bytes.len() == DESCRIPTION => random_name(rng).to_vec(),
        _ => bytes,
    }
}

/// The bytes that a call's buffer should have.
fn right_buffer(name: Name, length: u32, rng: &mut Rng) -> usize {
    match name {
        Name::Read | Name::Write => DATA,
        Name::Description | Name::Describe | Name::Name => DESCRIPTION,
        Name::Extract => DATA * length as usize,
        Name::Tree => ROW * rows(rng),
        _ => 0,
    }
}

/// How many rows a tree gets: none, one, some, or more than most trees have.
fn rows(rng: &mut Rng) -> usize {
    let some = 2 + rng.below(60);
    choose(&[0, 1, some, some, some, 500], rng) as usize
}

/// The right rule, or once in a while another one, one of a wrong length among them.
fn rule(right: &[u8], rng: &mut Rng) -> Vec<u8> {
    let length = match rng.below(20) {
        0 => choose(&[1, 2, 25, 27, 52], rng) as usize,
        1 => LONGEST + 1,
        2 => 0,
        _ => return right.to_vec(),
    };
    let mut bytes = vec![0; length];
    rng.fill(&mut bytes);
    bytes
}

/// A few letters, joints among them; or nothing, which is the root.
fn any_path(rng: &mut Rng) -> Vec<u8> {
    (0..rng.below(8)).map(|_| b">>Aaz1"[rng.below(6) as usize]).collect()
}

/// A call with a rule, and a path for look_up, that fit the tree of its image; other calls are as they were.
pub fn aimed(call: Call, tree: &Tree, rng: &mut Rng) -> Call {
    if !Name::DIRECTORIES.contains(&call.name) {
        return call;
    }
    Call { rule: rule(&tree.rule, rng), path: random_path(rng, tree), ..call }
}

/// A number to convert: a block or an address of one, with reserved bits or without, or just beside it; or anything.
fn near_address(place: &Place, rng: &mut Rng) -> u32 {
    let b = place.any_block(rng);
    let (lda, bits) = (place.lda(b), rng.below(LOW + 1));
    let number = choose(&[b, place.pda(b), lda, lda | bits, b + 57_344, rng.number() as u32], rng);
    match rng.below(3) {
        0 => number ^ 1 << rng.below(32),
        _ => number,
    }
}

/// A random call out of `names`; `files` are the blocks to aim at.
pub fn call(names: &[Name], image: &[u8], place: &Place, files: &[u32], rng: &mut Rng) -> Call {
    let name = names[rng.below(names.len() as u32) as usize];
    let drive = mostly(place.drive, &[0, 1, 2, 3, 4, 5, u32::MAX], rng);
    let starts = [0, place.s - 1, place.s + 1, place.e, place.n - 1, place.n, u32::MAX];
    let s = mostly(place.s, &starts, rng);
    let f = file(place, files, rng);
    let length = length(image, place, f);
    let number = match rng.below(4) {
        _ if name.group() == Group::Conversions => near_address(place, rng),
        0 => rng.number() as u32,
        _ => rng.below(place.n + 2),
    };
    let limit = match rng.below(10) {
        0..=4 => u32::MAX,
        5 => rng.below(place.n + 2),
        _ => rng.below(12),
    };
    let buffer = lent(name, length, rng);
    let r = block(length, rng);
    let (rule, path) = match Name::DIRECTORIES.contains(&name) {
        true => (rule(&[], rng), any_path(rng)),
        false => (Vec::new(), Vec::new()),
    };
    Call { name, drive, s, f, r, number, limit, rule, path, buffer }
}
