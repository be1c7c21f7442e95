//! Request 4: damaged double indexes. What makes a file malformed is refused by 4; an entry left over
//! in -2, -3 or the last pointer block is refused by 5, and repair makes it nil.

mod common;
use common::double::*;
use common::*;
use reference::*;

/// L = 4,299: pointer blocks -4 to -37, the last two named by -2. Nine blocks are free.
fn with_minus_2() -> Vec<u8> {
    one_file(4_300, end(4_300, 9))
}

/// L = 20,599: pointer blocks -4 to -164, the last one named by -3.
fn with_minus_3() -> Vec<u8> {
    one_file(20_600, end(20_600, 9))
}

/// A block that is free in both.
fn free(image: &[u8]) -> u32 {
    image.len() as u32 / 528 - 3
}

/// All calls that look at the file refuse it by 4; nothing changes.
fn is_malformed(image: &[u8]) {
    let mut copy = image.to_vec();
    assert_eq!(check(image, DRIVE, 1), malformed(2));
    assert_eq!(show(image, DRIVE, 1, 2, 0), malformed(2));
    assert_eq!(read(image, DRIVE, 1, 2, 40_000, &mut [0; 512]), malformed(2));
    assert_eq!(next_file(image, DRIVE, 1, 0), absent());
    assert_eq!(write(&mut copy, DRIVE, 1, 2, 0, &[0; 512], ALL), malformed(2));
    assert_eq!(repair(&mut copy, DRIVE, 1, ALL), malformed(2));
    assert!(copy == image);
}

/// One entry on the way to the data is nil, or names a block outside, a free one or a wrong one.
fn wrong_entries(image: &[u8], holder: u32, at: usize, of_the_file: &[i32]) {
    let outside = [0, lda(0), lda(1), lda(image.len() as u32 / 528)];
    let inside = of_the_file.iter().map(|&relative| lda(block(relative)));
    let right = pair(image, holder, at);
    for wrong in
        outside.into_iter().chain([lda(free(image)), lda(2), right ^ 1 << 31]).chain(inside)
    {
        assert_ne!(wrong, right);
        is_malformed(&with(image, &[], &[(holder, at, wrong)]));
    }
}

#[test]
fn a_wrong_entry() {
    let image = with_minus_2();
    wrong_entries(&image, 2, 8 + 244, &[-4, -35, -36, 0, 4_160]);
    wrong_entries(&image, block(-2), 8, &[-2, -4, -35, -37, 0, 4_160]);
    wrong_entries(&image, block(-2), 8 + 2, &[-2, -4, -35, -36, 0, 4_160]);
    wrong_entries(&image, block(-37), 8, &[-2, -36, 4_287, 4_289]);
    let image = with_minus_3();
    wrong_entries(&image, 2, 8 + 244, &[-3, -4]);
    wrong_entries(&image, 2, 8 + 246, &[-2, -4]);
    wrong_entries(&image, block(-2), 8 + 254, &[-2, -3, -162, -164]);
    wrong_entries(&image, block(-3), 8, &[-2, -3, -163, 20_544]);
    let swapped = [(2, 8 + 244, lda(block(-3))), (2, 8 + 246, lda(block(-2)))];
    is_malformed(&with(&image, &[], &swapped));
}

#[test]
fn a_wrong_header() {
    for (image, relatives) in [
        (with_minus_2(), &[-2, -36, -37, 4_160, 4_299][..]),
        (with_minus_3(), &[-2, -3, -36, -163, -164, 20_543, 20_544]),
    ] {
        for &relative in relatives {
            let b = block(relative);
            for wrong in [-1, -2, -3, -4, -35, -36, -37, 0, 4_160] {
                if wrong != relative {
                    is_malformed(&with(&image, &[(b, 2, wrong as i16 as u16)], &[]));
                }
            }
            for wrong in [0, pda(3), pda(b), pda(2) + (1 << 16)] {
                is_malformed(&with(&image, &[], &[(b, 0, wrong)]));
            }
        }
    }
}

#[test]
fn wrong_words_of_the_fib() {
    let image = with_minus_2();
    // Blocks in use without -2, or without any pointer block; last negative number -2, -4, -36, -38.
    for wrong in [4_335, 4_337, 4_301] {
        is_malformed(&with(&image, &[(2, 8 + 249, wrong)], &[]));
    }
    assert_eq!(word(&image, 2, 8 + 249), 1 + 4_300 + 34 + 1);
    for wrong in [-1, -2, -4, -36, -38] {
        is_malformed(&with(&image, &[(2, 8 + 253, wrong as i16 as u16)], &[]));
    }
    for wrong in [-1, -2, -4, -36] {
        is_malformed(&with(&image, &[], &[(2, 8 + 254, lda(block(wrong)))]));
    }
    for wrong in [4_159, 4_298, 4_300, 20_544, 32_766, 32_767] {
        is_malformed(&with(&image, &[(2, 8 + 250, wrong)], &[]));
    }
}

/// Any bit in a double entry that 0..L does not need, reserved ones too.
#[test]
fn a_double_entry_in_a_short_file() {
    for (length, words) in
        [(0, &[244, 246][..]), (3, &[244, 246]), (4_160, &[244, 246]), (4_300, &[246])]
    {
        let image = one_file(length, end(length, 9));
        for &at in words {
            for wrong in [1, 1 << 31, lda(2), lda(3), lda(free(&image))] {
                is_malformed(&with(&image, &[], &[(2, 8 + at, wrong)]));
            }
        }
    }
}

/// A left-over entry is 5 for check and changing calls; reading goes on, and repair makes it nil.
fn is_left_over(image: &[u8], holder: i32, entry: usize) {
    let mut whole = image.to_vec();
    repair(&mut whole, DRIVE, 1, ALL);
    for wrong in [1, 0xFF, 1 << 31, lda(3), lda(free(image)), lda(block(-36))] {
        let mut spoilt = with(&whole, &[], &[(block(holder), 8 + 2 * entry, wrong)]);
        assert_eq!(check(&spoilt, DRIVE, 1), refused(5));
        assert_eq!(show(&spoilt, DRIVE, 1, 2, 4_299), show(&whole, DRIVE, 1, 2, 4_299));
        assert_eq!(write(&mut spoilt, DRIVE, 1, 2, 0, &[0; 512], ALL), refused(5));
        assert_eq!(destroy(&mut spoilt, DRIVE, 1, 2, ALL), refused(5));
        assert_eq!(repair(&mut spoilt, DRIVE, 1, ALL).outcome, DONE);
        assert!(spoilt == whole);
    }
}

#[test]
fn a_left_over_entry() {
    let image = with_minus_2();
    for (holder, entry) in [(-2, 2), (-2, 3), (-2, 127), (-37, 12), (-37, 127)] {
        is_left_over(&image, holder, entry);
    }
    let image = with_minus_3();
    for (holder, entry) in [(-3, 1), (-3, 127), (-164, 56), (-164, 127)] {
        is_left_over(&image, holder, entry);
    }
}

/// The links between -4, -3, -2 and the FIB are those of the relative numbers.
#[test]
fn a_wrong_link() {
    let mut image = with_minus_3();
    repair(&mut image, DRIVE, 1, ALL);
    let order = [-5, -4, -3, -2, -1, 0].map(block);
    for (b, at) in order.iter().flat_map(|&b| [(b, 4), (b, 6)]) {
        for wrong in [0, pda(3), pda(b), 1] {
            if wrong != pair(&image, b, at) {
                let mut spoilt = with(&image, &[], &[(b, at, wrong)]);
                assert_eq!(check(&spoilt, DRIVE, 1), refused(5));
                assert_eq!(repair(&mut spoilt, DRIVE, 1, ALL).outcome, DONE);
                assert!(spoilt == image);
            }
        }
    }
    for pair_of_blocks in order.windows(2) {
        assert_eq!(pair(&image, pair_of_blocks[0], 4), pda(pair_of_blocks[1]));
        assert_eq!(pair(&image, pair_of_blocks[1], 6), pda(pair_of_blocks[0]));
    }
}
