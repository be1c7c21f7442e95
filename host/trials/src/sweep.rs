//! Every reading call on one image, with the arguments that could matter for it.

use crate::both::Both;
use crate::call::{Call, Name};
use crate::images::{word, Place, DATA_WORD};
use reference::file::{DESCRIPTION, LAST_BLOCK};
use reference::image::{DATA, RECORD};
use reference::tree::ROW;
use reference::tree_sample::Tree;
use reference::DONE;

/// A buffer that shows where a call has not written.
fn untouched(length: usize) -> Vec<u8> {
    (0..length).map(|i| (i * 7 + 13) as u8).collect()
}

/// Check accepts the partition.
///
/// # Panics
/// If it does not.
pub fn must_be_sound(both: &mut Both, place: &Place) {
    let answer = both.call(&place.call(Name::Check));
    assert_eq!(answer.outcome, DONE, "{answer:?}");
}

/// Check, and next_file from every place where its answer could change.
pub fn partition(both: &mut Both, place: &Place, files: &[u32]) {
    let Place { drive, s, e, .. } = *place;
    both.call(&Call::new(Name::Check, drive, s));
    let around = files.iter().flat_map(|&f| [f.saturating_sub(1), f]);
    for after in around.chain([0, s, e, u32::MAX]) {
        both.call(&Call::new(Name::NextFile, drive, s).with_number(after));
    }
}

/// How many blocks a file says it has, if the image has so many.
pub fn length(image: &[u8], f: u32) -> u32 {
    let last = i32::from(word(image, f, DATA_WORD + LAST_BLOCK) as i16);
    (last + 1).clamp(0, (image.len() / RECORD) as i32) as u32
}

/// The blocks of a file of so many to ask for: at its ends and past them, where its index changes its form, and where no file
/// has a block.
pub fn edges(length: u32) -> Vec<u32> {
    let mut edges = vec![0, length.saturating_sub(1), length, length + 1, 63, 64, 191, 192];
    edges.extend([4_159, 4_160, 32_766, 32_767, u32::MAX]);
    if length > 4_160 {
        edges.extend([4_287, 4_288, 20_543, 20_544]);
    }
    edges
}

/// The calls on one file: at its first and last blocks and past them, and with buffers that are just too long.
pub fn file(both: &mut Both, place: &Place, f: u32) {
    let length = length(both.image(), f);
    let base = |name| place.call(name).with_file(f);
    for r in edges(length) {
        both.call(&base(Name::Show).with_block(r));
        both.call(&base(Name::Read).with_block(r).with_buffer(&untouched(DATA)));
    }
    both.call(&base(Name::Read).with_buffer(&untouched(DATA + 1)));
    both.call(&base(Name::Description).with_buffer(&untouched(DESCRIPTION)));
    both.call(&base(Name::Description).with_buffer(&untouched(DESCRIPTION - 1)));
    both.call(&base(Name::Extract).with_buffer(&untouched(DATA * length as usize)));
    both.call(&base(Name::Extract).with_buffer(&untouched(DATA * length as usize + 1)));
}

/// The tree with none, one, some and many rows, and what these paths lead to; with the rule that fits, and with none.
pub fn directories(both: &mut Both, place: &Place, tree: &Tree, paths: &[Vec<u8>]) {
    for rule in [&tree.rule[..], &[]] {
        let base = |name| place.call(name).with_rule(rule);
        for rows in [0, 1, 7, 200] {
            both.call(&base(Name::Tree).with_buffer(&untouched(ROW * rows)));
        }
        for path in paths {
            both.call(&base(Name::LookUp).with_path(path));
        }
    }
}

/// Every block of a file read, shown and extracted; the three must be the same bytes.
pub fn whole_file(both: &mut Both, place: &Place, f: u32) {
    let length = length(both.image(), f);
    let base = |name| place.call(name).with_file(f);
    let whole = base(Name::Extract).with_buffer(&untouched(DATA * length as usize));
    let (answer, bytes) = both.call_with(&whole, &[]);
    assert_eq!((answer.outcome, answer.a), (0, length), "extract of file {f}");
    for (r, part) in (0..length).zip(bytes.chunks(DATA)) {
        let read = base(Name::Read).with_block(r).with_buffer(&untouched(DATA));
        let (_, buffer) = both.call_with(&read, &[]);
        let shown = both.call(&base(Name::Show).with_block(r));
        assert_eq!(shown.b as usize, DATA);
        assert!(
            buffer == part && &both.image()[shown.a as usize..][..DATA] == part,
            "block {r} of file {f}"
        );
    }
}
