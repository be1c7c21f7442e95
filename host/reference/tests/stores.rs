//! Store lists and whole records of append and destroy around pointer blocks, repair, and describe.

mod common;
use common::names::described;
use common::*;
use reference::*;

const DRIVE: u32 = 3;

fn pda(lbn: u32) -> u32 {
    lbn_to_pda(DRIVE, lbn).a
}

fn lda(lbn: u32) -> u32 {
    lbn_to_lda(DRIVE, lbn).a
}

/// One file at 2 with this many blocks, on a floppy's partition 1..420. Data block r < 64 is 3+r.
fn one_file(length: u32) -> Vec<u8> {
    sample::scattered(DRIVE, 432, 1, 420, &[length], 5)
}

#[test]
fn append_store_lists() {
    // r, stores: data, pointer block, old last, old most negative, FIB, new first free, PIB.
    let rows: [(u32, &[u32]); 7] = [
        (0, &[3, 2, 4, 1]),
        (1, &[4, 3, 2, 5, 1]),
        (63, &[66, 65, 2, 67, 1]),
        (64, &[67, 68, 66, 2, 69, 1]),
        (65, &[69, 68, 67, 2, 70, 1]),
        (192, &[196, 197, 195, 68, 2, 198, 1]),
        (193, &[198, 197, 196, 2, 199, 1]),
    ];
    for (r, stores) in rows {
        let plan = plan_write(&one_file(r), DRIVE, 1, 2, r, &[9; 512]);
        assert_eq!(blocks(&plan), stores);
        assert_eq!(plan.stores[plan.deciding].0, 2);
        assert_eq!(plan.answer, made(stores.len() as u32));
        let mut grown = one_file(r);
        write(&mut grown, DRIVE, 1, 2, r, &sample::content(5, 0, r), ALL);
        assert!(grown == one_file(r + 1));
    }
}

#[test]
fn append_with_the_first_pointer_block() {
    let before = with(&one_file(64), &[(67, 3, 0xAAAA), (68, 3, 0xBBBB)], &[(68, 8 + 100, 77)]);
    let mut after = before.clone();
    write(&mut after, DRIVE, 1, 2, 64, &[9; 512], ALL);
    let words = [
        (67, 2, 64),
        (68, 2, -4_i16 as u16),
        (2, 8 + 249, 67),
        (2, 8 + 250, 64),
        (2, 8 + 253, -4_i16 as u16),
        (69, 3, 69),
    ];
    let pairs = [
        (67, 0, pda(2)),
        (67, 4, 0),
        (67, 6, pda(66)),
        (68, 0, pda(2)),
        (68, 4, pda(2)),
        (68, 6, 0),
        (68, 8, lda(67)),
        (68, 8 + 100, 0),
        (66, 4, pda(67)),
        (2, 6, pda(68)),
        (2, 8 + 180, lda(68)),
        (2, 8 + 251, lda(67)),
        (2, 8 + 254, lda(68)),
        (69, 6, 0),
        (1, 8, lda(69)),
        (1, 8 + 4, 420 - 68),
    ];
    let mut expected = with(&before, &words, &pairs);
    expected[528 * 67 + 16..528 * 68].fill(9);
    assert!(after == expected);
    assert_eq!(check(&after, DRIVE, 1).outcome, DONE);
}

#[test]
fn append_with_the_second_pointer_block() {
    let before = one_file(192);
    let mut after = before.clone();
    write(&mut after, DRIVE, 1, 2, 192, &[9; 512], ALL);
    let words = [
        (196, 2, 192),
        (197, 2, -5_i16 as u16),
        (2, 8 + 249, 196),
        (2, 8 + 250, 192),
        (2, 8 + 253, -5_i16 as u16),
        (198, 3, 198),
    ];
    let pairs = [
        (196, 0, pda(2)),
        (196, 4, 0),
        (196, 6, pda(195)),
        (197, 0, pda(2)),
        (197, 4, pda(68)),
        (197, 6, 0),
        (197, 8, lda(196)),
        (195, 4, pda(196)),
        (68, 6, pda(197)),
        (2, 8 + 182, lda(197)),
        (2, 8 + 251, lda(196)),
        (2, 8 + 254, lda(197)),
        (198, 6, 0),
        (1, 8, lda(198)),
        (1, 8 + 4, 420 - 197),
    ];
    let mut expected = with(&before, &words, &pairs);
    expected[528 * 196 + 16..528 * 197].fill(9);
    assert!(after == expected);
    let order = inspect::file_blocks(&after, DRIVE, 1, 2).unwrap();
    assert_eq!(order[..4], [197, 68, 2, 3]);
}

#[test]
fn destroy_with_pointer_blocks() {
    let before = one_file(193);
    let plan = plan_destroy(&before, DRIVE, 1, 2);
    assert_eq!((blocks(&plan), plan.deciding), (vec![2, 197, 196, 420, 1], 0));
    let mut after = before.clone();
    assert_eq!(destroy(&mut after, DRIVE, 1, 2, ALL), made(5));
    let words = [(197, 3, 198), (196, 3, 198)];
    let pairs = [
        (2, 0, 0),
        (197, 0, 0),
        (197, 6, pda(420)),
        (196, 0, 0),
        (420, 4, pda(197)),
        (1, 8 + 2, lda(196)),
        (1, 8 + 4, 419),
    ];
    assert!(after == with(&before, &words, &pairs));
    let chain = inspect::free_chain(&after, DRIVE, 1).unwrap();
    assert_eq!(chain[222..226], [420, 197, 68, 2]);
    assert_eq!((chain[0], chain[418]), (198, 196));
}

#[test]
fn destroy_of_an_empty_file() {
    let before = one_file(0);
    let mut after = before.clone();
    assert_eq!(blocks(&plan_destroy(&before, DRIVE, 1, 2)), [2, 420, 1]);
    destroy(&mut after, DRIVE, 1, 2, ALL);
    let pairs =
        [(2, 0, 0), (2, 6, pda(420)), (420, 4, pda(2)), (1, 8 + 2, lda(2)), (1, 8 + 4, 419)];
    assert!(after == with(&before, &[(2, 3, 3)], &pairs));
}

#[test]
fn replace_and_describe() {
    let before = one_file(100);
    for (r, b) in [(0, 3), (63, 66), (64, 67), (65, 69), (99, 103)] {
        let plan = plan_write(&before, DRIVE, 1, 2, r, &[9; 512]);
        assert_eq!((blocks(&plan), plan.deciding), (vec![b], 0));
        let mut after = before.clone();
        write(&mut after, DRIVE, 1, 2, r, &[9; 512], 0);
        assert!(after == before);
        write(&mut after, DRIVE, 1, 2, r, &[9; 512], 1);
        let mut expected = before.clone();
        expected[528 * b as usize + 16..][..512].fill(9);
        assert!(after == expected);
    }
    let mut after = before.clone();
    assert_eq!(describe(&mut after, DRIVE, 1, 2, &described(8), ALL), made(1));
    let mut expected = before.clone();
    expected[528 * 2 + 16..][..104].copy_from_slice(&described(8));
    assert!(after == expected);
    let mut words = [0; 104];
    assert_eq!(description(&after, DRIVE, 1, 2, &mut words), Answer::default());
    assert_eq!(words, described(8));
}

#[test]
fn repair_keeps_what_it_should() {
    // Every link of file and free chain is spoilt, and an unused entry set; free blocks hold data.
    let mut image = one_file(70);
    let whole = image.clone();
    for b in 2..=420 {
        set_pair(&mut image, b, 4, 0xDEAD_BEEF);
        set_pair(&mut image, b, 6, 0xDEAD_BEEF);
    }
    set_pair(&mut image, 68, 8 + 2 * 6, lda(3));
    for b in [74, 100, 420] {
        set_pair(&mut image, b, 0, pda(2));
        set_word(&mut image, b, 2, 5);
        set_word(&mut image, b, 3, 1234);
        set_word(&mut image, b, 8 + 60, 4321);
    }
    assert_eq!(check(&image, DRIVE, 1), refused(5));
    let plan = plan_repair(&image, DRIVE, 1);
    assert_eq!(blocks(&plan), (2..=420).chain([1]).collect::<Vec<u32>>());
    assert_eq!(plan.deciding, plan.stores.len());
    let mut expected = whole;
    for b in 74..=420 {
        set_word(&mut expected, b, 3, 74);
    }
    for b in [74, 100, 420] {
        set_word(&mut expected, b, 2, 5);
        set_word(&mut expected, b, 8 + 60, 4321);
    }
    for limit in [0, 1, 300, 419, 420, 1000] {
        let mut cut = image.clone();
        assert_eq!(repair(&mut cut, DRIVE, 1, limit).made, limit.min(420));
        let changed = 528 * (2 + limit.min(419) as usize);
        assert!(cut[528 * 2..changed] == expected[528 * 2..changed]);
        assert!(cut[changed..] == image[changed..]);
        assert!(repair(&mut cut, DRIVE, 1, ALL).outcome == DONE && cut == expected);
    }
}

/// Every cut of a plan, repaired, leaves the file as it was or as the whole call makes it.
fn cut_everywhere(before: &[u8], plan: &Plan) {
    let contents = |image: &[u8]| {
        let files = inspect::files(image, DRIVE, 1).expect("sound");
        files.first().map(|file| {
            let mut data = vec![0; 512 * file.length() as usize];
            extract(image, DRIVE, 1, 2, &mut data);
            (data, inspect::file_blocks(image, DRIVE, 1, 2))
        })
    };
    let mut after = before.to_vec();
    plan.apply(&mut after, ALL);
    for limit in 0..=plan.stores.len() {
        let mut cut = before.to_vec();
        assert_eq!(plan.apply(&mut cut, limit as u32).made, limit as u32);
        assert_eq!(repair(&mut cut, DRIVE, 1, ALL).outcome, DONE);
        let whole = if limit > plan.deciding { &after[..] } else { before };
        assert!(contents(&cut) == contents(whole));
    }
}

#[test]
fn cuts_around_pointer_blocks() {
    for length in [0, 1, 63, 64, 65, 191, 192, 193] {
        let before = one_file(length);
        cut_everywhere(&before, &plan_write(&before, DRIVE, 1, 2, length, &[9; 512]));
        cut_everywhere(&before, &plan_destroy(&before, DRIVE, 1, 2));
    }
}
