//! Bits 0-7 of an LDA, request 2: every call keeps them in an address that still names the same block,
//! and writes zeros in one that is new. Every expectation is worked by hand.

mod common;
use common::low_bits::*;
use common::names::described;
use common::*;
use reference::*;

const DRIVE: u32 = 3;

fn pda(lbn: u32) -> u32 {
    lbn_to_pda(DRIVE, lbn).a
}

/// The clean LDA on a floppy.
fn lda(lbn: u32) -> u32 {
    0xE000_0000 + 256 * lbn
}

/// A floppy's partition 1..420, low bits in every LDA. RootDirectoryID names the one file, at 2. Its
/// data block r is 3+r for r < 65, then 4+r, and 5+r from 193 on; its pointer blocks are 68 and 197.
fn smeared(length: u32) -> Vec<u8> {
    let mut image = sample::scattered(DRIVE, 432, 1, 420, &[length], 5);
    set_pair(&mut image, 1, 8 + 6, lda(2));
    let places = [ldas_of_pib(1), vec![(1, 8 + 6)], ldas_of_file(&image, 2, length)].concat();
    lay_low_bits(&mut image, &places);
    assert_eq!(check(&image, DRIVE, 1).outcome, DONE);
    image
}

/// The image after a write of nines at r, and the one before with nines in block `data`, which is to
/// have them.
fn written(before: &[u8], r: u32, data: usize) -> (Vec<u8>, Vec<u8>) {
    let mut after = before.to_vec();
    assert_eq!(write(&mut after, DRIVE, 1, 2, r, &[9; 512], ALL).outcome, DONE);
    assert_eq!(check(&after, DRIVE, 1).outcome, DONE);
    let mut expected = before.to_vec();
    expected[528 * data + 16..528 * (data + 1)].fill(9);
    (after, expected)
}

#[test]
fn the_image_is_what_it_says() {
    let image = smeared(194);
    let blocks = inspect::file_blocks(&image, DRIVE, 1, 2).unwrap();
    assert_eq!(blocks[..4], [197, 68, 2, 3]);
    for (r, b) in [(63, 66), (64, 67), (65, 69), (192, 196), (193, 198)] {
        assert_eq!(blocks[3 + r], b);
    }
    for (b, data) in [(1, 0), (1, 2), (1, 6), (2, 52), (2, 180), (2, 251), (2, 254), (197, 2)] {
        assert_ne!(word(&image, b, 8 + data) & 0xFF, 0);
    }
}

/// L = 0 becomes 1. The last negative address names the FIB as before.
#[test]
fn append_keeps_the_last_negative_address() {
    let before = smeared(1);
    assert_eq!(pair(&before, 2, 8 + 254) & !0xFF, lda(2));
    let (after, expected) = written(&before, 1, 4);
    let words = [(4, 2, 1), (2, 8 + 249, 3), (2, 8 + 250, 1), (5, 3, 5)];
    let links = [(4, 0, pda(2)), (4, 4, 0), (4, 6, pda(3)), (3, 4, pda(4)), (5, 6, 0)];
    // Direct entry 1, last address and FreeHead are new; NumberFree is 5 to 420.
    let ldas = [(2, 8 + 54, lda(4)), (2, 8 + 251, lda(4)), (1, 8, lda(5)), (1, 8 + 4, 416)];
    assert!(after == with(&expected, &words, &[&links[..], &ldas].concat()));
}

/// L = -1 becomes 0: last address named the FIB, as the last negative address still does.
#[test]
fn append_to_an_empty_file() {
    let (after, expected) = written(&smeared(0), 0, 3);
    let words = [(3, 2, 0), (2, 8 + 249, 2), (2, 8 + 250, 0), (4, 3, 4)];
    let links = [(3, 0, pda(2)), (3, 4, 0), (3, 6, pda(2)), (2, 4, pda(3)), (4, 6, 0)];
    let ldas = [(2, 8 + 52, lda(3)), (2, 8 + 251, lda(3)), (1, 8, lda(4)), (1, 8 + 4, 417)];
    assert!(after == with(&expected, &words, &[&links[..], &ldas].concat()));
}

/// L = 64 becomes 65. The last negative address names pointer block 68 as before.
#[test]
fn append_into_a_pointer_block_keeps_the_last_negative_address() {
    let before = smeared(65);
    assert_eq!(pair(&before, 2, 8 + 254) & !0xFF, lda(68));
    let (after, expected) = written(&before, 65, 69);
    let words = [(69, 2, 65), (2, 8 + 249, 68), (2, 8 + 250, 65), (70, 3, 70)];
    let links = [(69, 0, pda(2)), (69, 4, 0), (69, 6, pda(67)), (67, 4, pda(69)), (70, 6, 0)];
    // Entry 1 of the pointer block, last address, FreeHead.
    let ldas = [(68, 8 + 2, lda(69)), (2, 8 + 251, lda(69)), (1, 8, lda(70)), (1, 8 + 4, 351)];
    assert!(after == with(&expected, &words, &[&links[..], &ldas].concat()));
}

/// L = 63 becomes 64. The block that becomes the pointer block holds an old entry with low bits that
/// names just the new data block: it is a new record, and has clean addresses.
#[test]
fn append_with_the_first_pointer_block_writes_clean_addresses() {
    let before = with(&smeared(64), &[], &[(68, 8, lda(67) + 7), (68, 8 + 10, lda(3) + 7)]);
    let (after, expected) = written(&before, 64, 67);
    let minus_4 = -4_i16 as u16;
    let numbers = [(67, 2, 64), (68, 2, minus_4), (69, 3, 69)];
    let fib = [(2, 8 + 249, 67), (2, 8 + 250, 64), (2, 8 + 253, minus_4)];
    let links = [
        (67, 0, pda(2)),
        (67, 4, 0),
        (67, 6, pda(66)),
        (68, 0, pda(2)),
        (68, 4, pda(2)),
        (68, 6, 0),
        (66, 4, pda(67)),
        (2, 6, pda(68)),
        (69, 6, 0),
    ];
    let ldas = [
        (68, 8, lda(67)),
        (68, 8 + 10, 0),
        (2, 8 + 180, lda(68)),
        (2, 8 + 251, lda(67)),
        (2, 8 + 254, lda(68)),
        (1, 8, lda(69)),
        (1, 8 + 4, 352),
    ];
    let words = [numbers, fib].concat();
    assert!(after == with(&expected, &words, &[&links[..], &ldas].concat()));
}

/// L = 191 becomes 192. Indirect entry 0 and pointer block 68 keep theirs.
#[test]
fn append_with_the_second_pointer_block_writes_clean_addresses() {
    let (after, expected) = written(&smeared(192), 192, 196);
    let minus_5 = -5_i16 as u16;
    let numbers = [(196, 2, 192), (197, 2, minus_5), (198, 3, 198)];
    let fib = [(2, 8 + 249, 196), (2, 8 + 250, 192), (2, 8 + 253, minus_5)];
    let links = [
        (196, 0, pda(2)),
        (196, 4, 0),
        (196, 6, pda(195)),
        (197, 0, pda(2)),
        (197, 4, pda(68)),
        (197, 6, 0),
        (195, 4, pda(196)),
        (68, 6, pda(197)),
        (198, 6, 0),
    ];
    let ldas = [
        (197, 8, lda(196)),
        (2, 8 + 182, lda(197)),
        (2, 8 + 251, lda(196)),
        (2, 8 + 254, lda(197)),
        (1, 8, lda(198)),
        (1, 8 + 4, 223),
    ];
    let words = [numbers, fib].concat();
    assert!(after == with(&expected, &words, &[&links[..], &ldas].concat()));
}

/// The first free block holds an old FIB whose last addresses name itself, with low bits.
#[test]
fn create_writes_clean_addresses_and_keeps_free_tail() {
    let old_fib = [(3, 8 + 52, lda(4) + 7), (3, 8 + 251, lda(3) + 7), (3, 8 + 254, lda(3) + 9)];
    let before = with(&smeared(0), &[], &old_fib);
    let mut after = before.clone();
    assert_eq!(create(&mut after, DRIVE, 1, 5, ALL), Answer { a: 3, ..made(3) });
    let minus_1 = -1_i16 as u16;
    let words = [
        (3, 2, minus_1),
        (3, 8 + 248, 5),
        (3, 8 + 249, 1),
        (3, 8 + 250, minus_1),
        (3, 8 + 253, minus_1),
        (4, 3, 4),
    ];
    let links = [(3, 0, pda(3)), (3, 4, 0), (3, 6, 0), (4, 6, 0)];
    let fib = [(3, 8 + 52, 0), (3, 8 + 251, lda(3)), (3, 8 + 254, lda(3))];
    let pib = [(1, 8, lda(4)), (1, 8 + 4, 417)];
    assert!(after == with(&before, &words, &[&links[..], &fib, &pib].concat()));
    assert_eq!(check(&after, DRIVE, 1).outcome, DONE);
}

/// FreeHead stays; FreeTail names block L now. The dead file's data, addresses too, are not touched.
#[test]
fn destroy_keeps_free_head() {
    // L = 1: FIB 2, data 3 and 4, free from 5 on.
    let before = smeared(2);
    let mut after = before.clone();
    assert_eq!(destroy(&mut after, DRIVE, 1, 2, ALL), made(4));
    let links = [(2, 0, 0), (2, 6, pda(420)), (4, 0, 0), (420, 4, pda(2))];
    let pib = [(1, 8 + 2, lda(4)), (1, 8 + 4, 419)];
    let fillers = [(2, 3, 5), (4, 3, 5)];
    assert!(after == with(&before, &fillers, &[&links[..], &pib].concat()));
    assert_eq!(inspect::free_chain(&after, DRIVE, 1).unwrap()[416..], [2, 3, 4]);
    // L = -1: the FIB is the last block.
    let before = smeared(0);
    let mut after = before.clone();
    assert_eq!(destroy(&mut after, DRIVE, 1, 2, ALL), made(3));
    let links = [(2, 0, 0), (2, 6, pda(420)), (420, 4, pda(2))];
    let pib = [(1, 8 + 2, lda(2)), (1, 8 + 4, 419)];
    assert!(after == with(&before, &[(2, 3, 3)], &[&links[..], &pib].concat()));
}

/// A file made of the blocks of a dead one has clean addresses.
#[test]
fn what_is_made_anew_is_clean() {
    // The file at 2 is the only one, and 9 free blocks come before it in the chain.
    let mut image = sample::scattered(DRIVE, 20, 1, 12, &[1], 5);
    let places = [ldas_of_pib(1), ldas_of_file(&image, 2, 1)].concat();
    lay_low_bits(&mut image, &places);
    assert_eq!(destroy(&mut image, DRIVE, 1, 2, ALL), made(4));
    for f in 4..=12 {
        assert_eq!(create(&mut image, DRIVE, 1, 0, ALL).a, f);
    }
    assert_ne!(pair(&image, 2, 8 + 254), lda(2));
    assert_eq!(create(&mut image, DRIVE, 1, 0, ALL).a, 2);
    assert_eq!(pair(&image, 2, 8 + 251), lda(2));
    assert_eq!(pair(&image, 2, 8 + 254), lda(2));
    assert_eq!((pair(&image, 1, 8), pair(&image, 1, 8 + 2)), (lda(3), lda(3)));
    assert_eq!(check(&image, DRIVE, 1), Answer { a: 10, b: 10, c: 1, ..Answer::default() });
}

#[test]
fn replace_and_describe_touch_no_address() {
    let before = smeared(70);
    for (r, b) in [(0, 3), (63, 66), (64, 67), (65, 69)] {
        let (after, expected) = written(&before, r, b);
        assert!(after == expected);
    }
    let mut after = before.clone();
    assert_eq!(describe(&mut after, DRIVE, 1, 2, &described(8), ALL), made(1));
    let mut expected = before;
    expected[528 * 2 + 16..][..104].copy_from_slice(&described(8));
    assert!(after == expected);
}

/// FreeHead and FreeTail before and after repair on drive 0, where blocks 2 to 10 are free.
#[test]
fn repair_keeps_free_ends_that_name_the_right_block() {
    let (head, tail) = (0xC000_0200, 0xC000_0A00);
    let rows = [
        ((head + 0x11, tail + 0x22), (head + 0x11, tail + 0x22)),
        ((head + 0xFF, tail), (head + 0xFF, tail)),
        ((head, tail + 1), (head, tail + 1)),
        // The first names 3, the second 9; then both, then each the other's block.
        ((0xC000_0311, tail + 0x22), (head, tail + 0x22)),
        ((head + 0x11, 0xC000_0922), (head + 0x11, tail)),
        ((0xC000_0311, 0xC000_0922), (head, tail)),
        ((0xC000_0A11, 0xC000_0222), (head, tail)),
        // Nil; only low bits; a floppy's; no mark; the PIB and block 11; LBNs from 2^18 on; PDAs.
        ((0, 0), (head, tail)),
        ((0x11, 0x22), (head, tail)),
        ((0xE000_0211, 0xE000_0A22), (head, tail)),
        ((0x0000_0211, 0x0000_0A22), (head, tail)),
        ((0xC000_0111, 0xC000_0B22), (head, tail)),
        ((0xC400_0211, 0xC400_0A22), (head, tail)),
        ((34, 42), (head, tail)),
    ];
    let fresh = sample::fresh(0, 12, 1, 10);
    for (before, after) in rows {
        let mut image = with(&fresh, &[], &[(1, 8, before.0), (1, 8 + 2, before.1)]);
        assert_eq!(repair(&mut image, 0, 1, ALL), made(10));
        assert!(image == with(&fresh, &[], &[(1, 8, after.0), (1, 8 + 2, after.1)]));
        assert_eq!(check(&image, 0, 1).outcome, DONE);
    }
}

#[test]
fn repair_with_one_free_block() {
    // FIB 2, data 3, free 4: both ends name it, each with bits of its own.
    let image = sample::scattered(0, 6, 1, 4, &[1], 1);
    let image = with(&image, &[], &[(1, 8, 0xC000_0411), (1, 8 + 2, 0xC000_0422)]);
    assert_eq!(check(&image, 0, 1), Answer { a: 1, b: 2, c: 1, ..Answer::default() });
    let mut after = image.clone();
    assert_eq!(repair(&mut after, 0, 1, ALL), made(4));
    assert!(after == image);
}

/// Links are spoilt, and unused entries of the pointer block set; no address of the file is touched.
#[test]
fn repair_leaves_the_files_addresses() {
    let whole = smeared(70);
    let mut spoilt = whole.clone();
    for b in 2..=420 {
        set_pair(&mut spoilt, b, 4, 0xDEAD_BEEF);
        set_pair(&mut spoilt, b, 6, 0xDEAD_BEEF);
    }
    let entries = [(68, 8 + 12, 7), (68, 8 + 14, lda(3) + 7), (68, 8 + 254, lda(420))];
    let mut after = with(&spoilt, &[], &entries);
    assert_eq!(repair(&mut after, DRIVE, 1, ALL), made(420));
    // Free are 74 to 420; FreeHead and FreeTail named 74 and 420, and keep their bits.
    let fillers: Vec<_> = (74..=420).map(|b| (b, 3, 74)).collect();
    assert!(after == with(&whole, &fillers, &[]));
    let mut again = after.clone();
    repair(&mut again, DRIVE, 1, ALL);
    assert!(again == after);
}

/// The image after the first `limit` stores of a plan, and repair.
fn cut_and_repaired(before: &[u8], plan: &Plan, limit: u32) -> Vec<u8> {
    let mut image = before.to_vec();
    plan.apply(&mut image, limit);
    assert_eq!(repair(&mut image, DRIVE, 1, ALL).outcome, DONE);
    assert_eq!(check(&image, DRIVE, 1).outcome, DONE);
    image
}

/// Beside the file of 64 blocks, 67 to 420 are free. FreeTail is always 420 as before.
#[test]
fn cut_calls_and_repair() {
    let before = smeared(64);
    let of_pib = |image: &[u8]| (pair(image, 1, 8), pair(image, 1, 8 + 2));
    let (head, tail) = of_pib(&before);
    assert_eq!((head & !0xFF, tail & !0xFF), (lda(67), lda(420)));
    let append = plan_write(&before, DRIVE, 1, 2, 64, &[9; 512]);
    let another = plan_create(&before, DRIVE, 1, 0);
    let end = plan_destroy(&before, DRIVE, 1, 2);
    // The FIB's is store 4 of 6, 1 of 3 and 1 of 4.
    for (plan, stores, deciding, new) in
        [(&append, 6, 4, lda(69)), (&another, 3, 1, lda(68)), (&end, 4, 1, lda(2))]
    {
        assert_eq!(plan.stores.len(), stores);
        for limit in 0..stores as u32 {
            let expected = if limit < deciding { head } else { new };
            assert_eq!(of_pib(&cut_and_repaired(&before, plan, limit)), (expected, tail));
        }
    }
    // Of the file's own addresses the old ones stay, cut before the FIB or after it.
    for limit in 0..=6 {
        let after = cut_and_repaired(&before, &append, limit);
        assert!(
            (0..64).all(|r| pair(&after, 2, 8 + 52 + 2 * r) == pair(&before, 2, 8 + 52 + 2 * r))
        );
        let last_negative = if limit < 4 { pair(&before, 2, 8 + 254) } else { lda(68) };
        let last = if limit < 4 { pair(&before, 2, 8 + 251) } else { lda(67) };
        assert_eq!((pair(&after, 2, 8 + 251), pair(&after, 2, 8 + 254)), (last, last_negative));
        assert_eq!(pair(&after, 1, 8 + 6), pair(&before, 1, 8 + 6));
    }
}
