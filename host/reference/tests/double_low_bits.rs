//! Requests 2 and 4 together: bits 0-7 of the LDAs of a double index say nothing, stay where the block
//! stays, and are zero in what is new.

mod common;
use common::double::*;
use common::low_bits::*;
use common::*;
use reference::*;
use std::collections::HashSet;

/// One file with so many blocks and nine free ones, low bits in every LDA.
fn smeared(length: u32) -> Vec<u8> {
    let mut image = one_file(length, end(length, 9));
    let places = [ldas_of_pib(1), ldas_of_file(&image, 2, length)].concat();
    // Four of the PIB, two fields of the FIB, one for each block but the FIB.
    assert_eq!(places.len() as u32, 4 + 2 + in_use(length) - 1);
    lay_low_bits(&mut image, &places);
    image
}

#[test]
fn a_double_index_with_low_bits_is_sound() {
    for length in [4_161, 4_300, 20_600] {
        let image = smeared(length);
        let clean = one_file(length, end(length, 9));
        assert_eq!(check(&image, DRIVE, 1), check(&clean, DRIVE, 1));
        assert_eq!(check(&image, DRIVE, 1).outcome, DONE);
        for r in [0, 4_159, 4_160, length - 1, length, 32_766, 32_767] {
            assert_eq!(show(&image, DRIVE, 1, 2, r), show(&clean, DRIVE, 1, 2, r));
        }
    }
}

#[test]
fn append_keeps_low_bits() {
    for r in [4_160, 4_161, 4_288, 20_543, 20_544, 20_545, 20_672] {
        let before = smeared(r);
        let mut after = before.clone();
        assert_eq!(write(&mut after, DRIVE, 1, 2, r, &[9; 512], ALL).outcome, DONE);
        assert_eq!(check(&after, DRIVE, 1).outcome, DONE);
        let old: HashSet<Place> = ldas_of_file(&before, 2, r).into_iter().collect();
        for (b, at) in ldas_of_file(&after, 2, r + 1).into_iter().chain(ldas_of_pib(1)) {
            let (was, is) = (pair(&before, b, at), pair(&after, b, at));
            let had = b == 1 || old.contains(&(b, at));
            let stays = had && was >> 8 == is >> 8;
            assert_eq!(is, if stays { was } else { is & !0xFF }, "block {b} word {at}");
            assert_eq!(stays, !is_new(r, b, at), "block {b} word {at}");
        }
    }
}

/// Which LDAs an append at r makes new: the entries of the new blocks, FreeHead, the last address, and
/// with a new pointer block the last negative address.
fn is_new(r: u32, b: u32, at: usize) -> bool {
    let entry = (r - 64) as usize % 128;
    let j = (r - 64) as usize / 128;
    let pointer = block(-4 - j as i32);
    let k = (j - 32) / 128;
    let double = block(-2 - k as i32);
    let new_pointer = entry == 0;
    let new_double = new_pointer && (j - 32) % 128 == 0;
    let always = [(pointer, 8 + 2 * entry), (2, 8 + 251), (1, 8)];
    let with_pointer = [(double, 8 + 2 * ((j - 32) % 128)), (2, 8 + 254)];
    always.contains(&(b, at))
        || new_pointer && with_pointer.contains(&(b, at))
        || new_double && (b, at) == (2, 8 + 244 + 2 * k)
}

#[test]
fn repair_and_replace_keep_low_bits() {
    let whole = smeared(20_600);
    let mut image = whole.clone();
    assert_eq!(write(&mut image, DRIVE, 1, 2, 20_599, &[9; 512], ALL), made(1));
    for b in 2..20_700 {
        set_pair(&mut image, b, 4, 0xDEAD_BEEF);
    }
    assert_eq!(repair(&mut image, DRIVE, 1, ALL).outcome, DONE);
    for (b, at) in ldas_of_file(&whole, 2, 20_600).into_iter().chain(ldas_of_pib(1)) {
        assert_eq!(pair(&image, b, at), pair(&whole, b, at));
    }
}

/// Low bits alone in an unused entry of -2 or of the FIB are no nil.
#[test]
fn low_bits_alone_are_not_nil() {
    let image = smeared(4_300);
    let mut spoilt = with(&image, &[], &[(block(-2), 8 + 4, 0x40)]);
    assert_eq!(check(&spoilt, DRIVE, 1), refused(5));
    assert_eq!(repair(&mut spoilt, DRIVE, 1, ALL).outcome, DONE);
    assert_eq!(pair(&spoilt, block(-2), 8 + 4), 0);
    assert_ne!(pair(&spoilt, block(-2), 8 + 2) & 0xFF, 0);
    assert_eq!(check(&with(&image, &[], &[(2, 8 + 246, 0x40)]), DRIVE, 1), malformed(2));
}
