//! Which words check reads, and the number it gives for a wrong one: every word of chosen blocks is
//! changed in turn.

mod common;
use common::*;
use reference::*;

/// Drive 1, partition 2..260: file 3 (L = 199), 4 (L = -1), 5 (L = 2), and old blocks of a dead file.
fn image() -> Vec<u8> {
    let mut image = sample::scattered(1, 262, 2, 260, &[200, 0, 3, 5], 11);
    destroy(&mut image, 1, 2, 6, ALL);
    image
}

#[derive(Clone, Copy, PartialEq)]
enum Role {
    Pib,
    Fib,
    /// Its file, and how many entries are used.
    Pointer(u32, usize),
    Data(u32),
    Free,
}

/// What check answers once this word (0-7 header, then data) of block b is wrong; none if no change.
fn expected(role: Role, b: u32, word: usize) -> Option<Answer> {
    let data = word.wrapping_sub(8);
    match (role, word) {
        (Role::Pib, 8..=13) => Some(refused(5)),
        (Role::Pib, _) if (118..=121).contains(&data) => Some(refused(2)),
        (Role::Pib, _) | (_, 3) => None,
        (_, 4..=7) => Some(refused(5)),
        (Role::Fib, 0..=2) => Some(refused(5)),
        (Role::Fib, _) if (52..=247).contains(&data) || data >= 249 => Some(malformed(b)),
        (Role::Pointer(f, _) | Role::Data(f), 0..=2) => Some(malformed(f)),
        (Role::Pointer(f, used), _) if data < 2 * used => Some(malformed(f)),
        (Role::Pointer(..), _) => Some(refused(5)),
        (Role::Fib | Role::Data(_) | Role::Free, _) => None,
    }
}

/// Whether this word is the low word of an LDA that check needs; bits 0-7 of it may be any. A nil entry
/// is none: it must stay nil.
fn holds_reserved_bits(image: &[u8], role: Role, b: u32, word: usize) -> bool {
    let data = word.wrapping_sub(8);
    let place = match role {
        Role::Pib => [0, 2, 118, 120].contains(&data),
        Role::Fib => (52..244).contains(&data) && data % 2 == 0 || [251, 254].contains(&data),
        Role::Pointer(_, used) => data < 2 * used && data % 2 == 0,
        Role::Data(_) | Role::Free => false,
    };
    place && pair(image, b, word) != 0
}

fn roles(image: &[u8]) -> Vec<(u32, Role)> {
    let long = inspect::file_blocks(image, 1, 2, 3).unwrap();
    let short = inspect::file_blocks(image, 1, 2, 5).unwrap();
    let free = inspect::free_chain(image, 1, 2).unwrap();
    let mut roles = vec![(2, Role::Pib), (3, Role::Fib), (4, Role::Fib), (5, Role::Fib)];
    roles.extend([(long[0], Role::Pointer(3, 8)), (long[1], Role::Pointer(3, 128))]);
    roles.extend([3, 66, 67, 202].map(|at| (long[at], Role::Data(3))));
    roles.extend([1, 2, 3].map(|at| (short[at], Role::Data(5))));
    roles.extend([0, 1, 2, free.len() - 3, free.len() - 1].map(|at| (free[at], Role::Free)));
    roles
}

#[test]
fn every_wrong_word() {
    let whole = image();
    let good = check(&whole, 1, 2);
    assert_eq!(good.outcome, DONE);
    for (b, role) in roles(&whole) {
        for at in 0..264 {
            for flip in [1, 0x00FF, 0x0100, 0x8000, 0xFFFF] {
                let mut image = whole.clone();
                set_word(&mut image, b, at, word(&whole, b, at) ^ flip);
                let answer = check(&image, 1, 2);
                let wanted = match (role, at - at.min(8), flip) {
                    // End 260 becomes 261, the image's last block, or 4, which cuts file 3.
                    (Role::Pib, 120, 0x0100) => refused(5),
                    (Role::Pib, 121, 1) => malformed(3),
                    (_, _, 0..=0xFF) if holds_reserved_bits(&whole, role, b, at) => good,
                    _ => expected(role, b, at).unwrap_or(good),
                };
                assert_eq!(answer, wanted, "block {b} word {at} flip {flip}");
            }
        }
    }
}

#[test]
fn a_free_candidate_is_malformed() {
    let mut image = image();
    let b = inspect::free_chain(&image, 1, 2).unwrap()[1];
    set_pair(&mut image, b, 0, lbn_to_pda(1, b).a);
    assert_eq!(check(&image, 1, 2).outcome, DONE);
    set_word(&mut image, b, 2, 0xFFFF);
    assert_eq!(check(&image, 1, 2), malformed(b));
}

#[test]
fn entries_outside_and_swapped() {
    let whole = image();
    let lda = |lbn| lbn_to_lda(1, lbn).a;
    for wrong in [0, lda(1), lda(2), lda(3), lda(261), lda(262), lbn_to_pda(1, 7).a] {
        let mut image = whole.clone();
        set_pair(&mut image, 3, 8 + 52, wrong);
        assert_eq!(check(&image, 1, 2), malformed(3));
    }
    let mut image = whole.clone();
    let (first, second) = (pair(&image, 3, 8 + 52), pair(&image, 3, 8 + 54));
    set_pair(&mut image, 3, 8 + 52, second);
    set_pair(&mut image, 3, 8 + 54, first);
    assert_eq!(check(&image, 1, 2), malformed(3));
    for last in [-2, i16::MIN, 4_160, 20_544, 32_766, i16::MAX] {
        let mut image = whole.clone();
        set_word(&mut image, 4, 8 + 250, last as u16);
        assert_eq!(check(&image, 1, 2), malformed(4));
    }
}

#[test]
fn a_free_chain_with_a_loop_or_a_gap() {
    let whole = image();
    let free = inspect::free_chain(&whole, 1, 2).unwrap();
    let pda = |lbn| lbn_to_pda(1, lbn).a;
    let end = *free.last().unwrap();
    for target in [free[0], free[3], end, 2, 3, 261] {
        let mut image = whole.clone();
        set_pair(&mut image, end, 4, pda(target));
        assert_eq!(check(&image, 1, 2), refused(5));
    }
    // One block left out, all counts agreeing with the shorter chain.
    let mut image = whole.clone();
    set_pair(&mut image, free[1], 6, 0);
    set_pair(&mut image, 2, 8, lbn_to_lda(1, free[1]).a);
    set_pair(&mut image, 2, 8 + 4, free.len() as u32 - 1);
    assert_eq!(check(&image, 1, 2), refused(5));
}
