//! Request 4: every cut of an append or a destroy at the edges of the double index, then repair. The
//! FIB's store decides, and nothing else is touched.

mod common;
use common::double::{end, DRIVE};
use common::names::described;
use common::*;
use reference::file::File;
use reference::*;

/// A file, the blocks of it in link order, and all its bytes.
type Contents = (File, Vec<u32>, Vec<u8>, Vec<u8>);

/// All files of a sound partition: the long one at 2 and the short one at 3.
fn contents(image: &[u8]) -> Vec<Contents> {
    let files = inspect::files(image, DRIVE, 1).expect("sound");
    let whole = |file: File| {
        let mut data = vec![0; 512 * file.length() as usize];
        let mut words = vec![0; 104];
        assert_eq!(extract(image, DRIVE, 1, file.f, &mut data).outcome, DONE);
        assert_eq!(description(image, DRIVE, 1, file.f, &mut words), Answer::default());
        words.extend(word(image, file.f, 8 + 248).to_le_bytes());
        (file, inspect::file_blocks(image, DRIVE, 1, file.f).expect("a file"), data, words)
    };
    files.into_iter().map(whole).collect()
}

/// Files of r and 3 blocks, described; 9 blocks are free.
fn two_files(r: u32) -> Vec<u8> {
    let e = end(r, 9) + 4;
    let mut image = sample::scattered(DRIVE, e + 3, 1, e, &[r, 3], 8);
    assert_eq!(describe(&mut image, DRIVE, 1, 2, &described(6), ALL), made(1));
    assert_eq!(describe(&mut image, DRIVE, 1, 3, &described(7), ALL), made(1));
    image
}

/// Every cut of a plan, repaired; a repair that is cut itself and made again leaves the same.
fn cut_everywhere(before: &[u8], plan: &Plan) {
    let mut after = before.to_vec();
    plan.apply(&mut after, ALL);
    let (old, new) = (contents(before), contents(&after));
    assert!(old != new && old[old.len() - 1] == new[new.len() - 1]);
    for limit in 0..=plan.stores.len() {
        let mut cut = before.to_vec();
        assert_eq!(plan.apply(&mut cut, limit as u32).made, limit as u32);
        let mut twice = cut.clone();
        assert_eq!(repair(&mut cut, DRIVE, 1, ALL).outcome, DONE);
        assert_eq!(check(&cut, DRIVE, 1).outcome, DONE);
        assert!(&contents(&cut) == if limit > plan.deciding { &new } else { &old });
        assert_eq!(repair(&mut twice, DRIVE, 1, 2_000).outcome, DONE);
        assert_eq!(repair(&mut twice, DRIVE, 1, ALL).outcome, DONE);
        assert!(twice == cut);
    }
}

#[test]
fn cuts_of_appends() {
    for r in [64, 192, 4_159, 4_160, 4_161, 4_288, 20_543, 20_544, 20_545] {
        let before = two_files(r);
        let plan = plan_write(&before, DRIVE, 1, 2, r, &[9; 512]);
        assert_eq!(plan.stores[plan.deciding].0, 2);
        cut_everywhere(&before, &plan);
    }
}

#[test]
fn cuts_of_destroy() {
    for length in [4_161, 20_545] {
        let before = two_files(length);
        cut_everywhere(&before, &plan_destroy(&before, DRIVE, 1, 2));
    }
}
