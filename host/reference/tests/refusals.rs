//! Each number 1 to 10, the order in which they are given, and that nothing is touched under them. Number
//! 12 is in names.rs.

mod common;
use common::names::described;
use common::*;
use reference::*;

/// Drive 0, s = 2, e = 20: file 3 (L = 1), file 4 (L = -1), free from 7 on.
fn image() -> Vec<u8> {
    sample::scattered(0, 22, 2, 20, &[2, 0], 1)
}

/// Every call of one partition on this image, with buffers of the right length (extract's is empty).
/// A refused call must leave image and buffer as they were.
fn every_call(image: &[u8], drive: u32, s: u32, f: u32, r: u32) -> Vec<Answer> {
    let mut block = [7; 512];
    let mut words = [7; 104];
    let changing = |call: &dyn Fn(&mut [u8]) -> Answer| {
        let mut changed = image.to_vec();
        let answer = call(&mut changed);
        assert!(answer.outcome != REFUSED || changed == image);
        answer
    };
    let answers = vec![
        check(image, drive, s),
        next_file(image, drive, s, 0),
        read(image, drive, s, f, r, &mut block),
        show(image, drive, s, f, r),
        description(image, drive, s, f, &mut words),
        extract(image, drive, s, f, &mut []),
        changing(&|image| create(image, drive, s, 1, ALL)),
        changing(&|image| write(image, drive, s, f, r, &[1; 512], ALL)),
        changing(&|image| describe(image, drive, s, f, &described(1), ALL)),
        changing(&|image| destroy(image, drive, s, f, ALL)),
        changing(&|image| repair(image, drive, s, ALL)),
    ];
    assert!(answers[2].outcome != REFUSED || block == [7; 512]);
    assert!(answers[4].outcome != REFUSED || words == [7; 104]);
    answers
}

fn all_refused(image: &[u8], drive: u32, s: u32, number: u32) {
    for answer in every_call(image, drive, s, 3, 0) {
        assert_eq!(answer, refused(number));
    }
}

#[test]
fn one_before_all() {
    all_refused(&image(), 4, 2, 1);
    all_refused(&image(), u32::MAX, 9, 1);
    all_refused(&[], 0, 2, 1);
    all_refused(&image()[..528 * 22 - 1], 0, 2, 1);
    all_refused(&image()[..527], 0, 2, 1);
    all_refused(&vec![0; 528 * 433], 3, 1, 1);
    all_refused(&vec![0; 528 * 432], 3, 1, 2);
    assert_eq!(read(&image(), 4, 2, 3, 0, &mut []), refused(1));
}

#[test]
fn two_for_no_good_partition() {
    let whole = image();
    for s in [0, 1, 3, 21, 22, 23, u32::MAX] {
        all_refused(&whole, 0, s, 2);
    }
    let lda = |lbn| lbn_to_lda(0, lbn).a;
    let with = |start, end| {
        let mut image = whole.clone();
        set_pair(&mut image, 2, 8 + 118, start);
        set_pair(&mut image, 2, 8 + 120, end);
        image
    };
    for (start, end) in [(lda(3), lda(20)), (0, lda(20)), (lda(2), lda(2)), (lda(2), lda(1))] {
        all_refused(&with(start, end), 0, 2, 2);
    }
    for (start, end) in [(lda(2), lda(22)), (lda(2), 0), (2, 20), (lda(2), 1), (0xFF, lda(20))] {
        all_refused(&with(start, end), 0, 2, 2);
    }
    assert_eq!(check(&with(lda(2), lda(20) + 1), 0, 2), check(&whole, 0, 2));
    assert_eq!(check(&with(lda(2), lda(21)), 0, 2), refused(5));
    assert_eq!(read(&whole, 0, 3, 3, 0, &mut []), refused(2));
}

#[test]
fn two_from_32768_blocks_up() {
    let mut large = sample::fresh(1, 32_769, 1, 32_767);
    assert_eq!(check(&large, 1, 1).c, 32_766);
    set_pair(&mut large, 1, 8 + 120, lbn_to_lda(1, 32_768).a);
    assert_eq!(check(&large, 1, 1), refused(2));
}

#[test]
fn three_for_a_wrong_buffer() {
    let mut whole = image();
    // A malformed candidate and an f that is none come later than 3.
    set_word(&mut whole, 3, 8 + 249, 9);
    let before = whole.clone();
    for length in [0, 104, 511, 513] {
        let mut buffer = vec![7; length];
        assert_eq!(read(&whole, 0, 2, 21, 40_000, &mut buffer), refused(3));
        assert_eq!(write(&mut whole, 0, 2, 21, 40_000, &buffer, ALL), refused(3));
    }
    for length in [0, 103, 105, 512] {
        let mut buffer = vec![7; length];
        assert_eq!(description(&whole, 0, 2, 21, &mut buffer), refused(3));
        assert_eq!(describe(&mut whole, 0, 2, 21, &buffer, ALL), refused(3));
        assert!(buffer.iter().all(|&byte| byte == 7));
    }
    assert!(whole == before);
    let good = image();
    assert_eq!(extract(&good, 0, 2, 3, &mut [0; 1023]), refused(3));
    assert_eq!(extract(&good, 0, 2, 4, &mut [0; 512]), refused(3));
    assert_eq!(extract(&good, 0, 2, 5, &mut [0; 1023]), refused(6));
    assert_eq!(extract(&whole, 0, 2, 3, &mut [0; 1023]), malformed(3));
}

#[test]
fn four_names_the_lowest_or_f() {
    let mut whole = image();
    set_word(&mut whole, 4, 8 + 250, 1);
    set_word(&mut whole, 2, 8 + 4, 0); // not sound either; 4 comes first
    let answers = every_call(&whole, 0, 2, 4, 0);
    assert_eq!(answers[1], Answer { a: 3, ..Answer::default() });
    for at in [0, 2, 3, 4, 5, 6, 7, 8, 9, 10] {
        assert_eq!(answers[at], malformed(4));
    }
    assert_eq!(read(&whole, 0, 2, 3, 0, &mut [0; 512]).outcome, DONE);
    assert_eq!(read(&whole, 0, 2, 4, 40_000, &mut [0; 512]), malformed(4));
    assert_eq!(write(&mut whole, 0, 2, 21, 0, &[0; 512], ALL), malformed(4));
    set_word(&mut whole, 3, 8 + 249, 9);
    assert_eq!(check(&whole, 0, 2), malformed(3));
    assert_eq!(read(&whole, 0, 2, 4, 0, &mut [0; 512]), malformed(4));
    assert_eq!(next_file(&whole, 0, 2, 0).outcome, ABSENT);
}

#[test]
fn five_for_an_unsound_partition() {
    let mut whole = image();
    set_word(&mut whole, 2, 8 + 4, 0);
    let answers = every_call(&whole, 0, 2, 3, 0);
    for at in [0, 6, 7, 8, 9] {
        assert_eq!(answers[at], refused(5));
    }
    assert_eq!(write(&mut whole, 0, 2, 21, 40_000, &[0; 512], ALL), refused(5));
    assert_eq!(repair(&mut whole, 0, 2, ALL).outcome, DONE);
    assert_eq!(check(&whole, 0, 2).outcome, DONE);
}

#[test]
fn six_for_no_candidate() {
    let whole = image();
    for f in [0, 1, 2, 5, 6, 7, 20, 21, 22, u32::MAX] {
        let answers = every_call(&whole, 0, 2, f, 40_000);
        for at in [2, 3, 4, 5, 7, 8, 9] {
            assert_eq!(answers[at], refused(6));
        }
    }
}

#[test]
fn seven_for_r() {
    let whole = image();
    let mut buffer = [7; 512];
    for r in [32_767, 32_768, 65_536, u32::MAX] {
        assert_eq!(read(&whole, 0, 2, 3, r, &mut buffer), refused(7));
        assert_eq!(show(&whole, 0, 2, 3, r), refused(7));
    }
    assert_eq!(buffer, [7; 512]);
    for r in [2, 4_159, 4_160, 32_766] {
        buffer = [7; 512];
        assert_eq!(read(&whole, 0, 2, 3, r, &mut buffer), absent());
        assert_eq!(buffer, [0; 512]);
        assert_eq!(show(&whole, 0, 2, 3, r), absent());
    }
    for r in [3, 4_159, 4_160, 32_766, 32_767, u32::MAX] {
        assert_eq!(write(&mut whole.clone(), 0, 2, 3, r, &buffer, ALL), refused(7));
    }
    assert_eq!(write(&mut whole.clone(), 0, 2, 4, 1, &buffer, ALL), refused(7));
    let long = sample::scattered(0, 4_200, 1, 4_199, &[4_160], 1);
    assert_eq!(write(&mut long.clone(), 0, 1, 2, 4_161, &buffer, ALL), refused(7));
    assert_eq!(write(&mut long.clone(), 0, 1, 2, 4_160, &buffer, ALL).outcome, DONE);
    assert_eq!(write(&mut long.clone(), 0, 1, 2, 4_159, &buffer, ALL).made, 1);
}

#[test]
fn eight_for_the_last_free_blocks() {
    // One file at 2; e leaves one free block, then two, with L = 63 or 10.
    for (length, free, append, new) in
        [(10, 1, 8, 8), (10, 2, 0, 0), (64, 1, 8, 8), (64, 2, 8, 0), (64, 3, 0, 0)]
    {
        let e = 2 + length + free;
        let mut image = sample::scattered(0, e + 1, 1, e, &[length], 1);
        assert_eq!(check(&image, 0, 1).c, free);
        assert_eq!(write(&mut image.clone(), 0, 1, 2, length, &[0; 512], ALL).number, append);
        assert_eq!(write(&mut image.clone(), 0, 1, 2, length + 1, &[0; 512], ALL).number, 7);
        assert_eq!(create(&mut image.clone(), 0, 1, 0, ALL).number, new);
        assert_eq!(write(&mut image.clone(), 0, 1, 2, 0, &[0; 512], ALL).made, 1);
        assert_eq!(describe(&mut image.clone(), 0, 1, 2, &described(0), ALL).made, 1);
        assert_eq!(destroy(&mut image, 0, 1, 2, ALL).made, 4);
    }
}

#[test]
fn nine_for_no_unowned_block() {
    // The free block of a full partition is made the file's last block by hand.
    let mut image = sample::scattered(0, 6, 1, 4, &[1], 1);
    assert_eq!(inspect::free_chain(&image, 0, 1), Some(vec![4]));
    set_pair(&mut image, 4, 0, lbn_to_pda(0, 2).a);
    set_word(&mut image, 4, 2, 1);
    set_pair(&mut image, 2, 8 + 52 + 2, lbn_to_lda(0, 4).a);
    set_word(&mut image, 2, 8 + 249, 3);
    set_word(&mut image, 2, 8 + 250, 1);
    set_pair(&mut image, 2, 8 + 251, lbn_to_lda(0, 4).a);
    let before = image.clone();
    assert_eq!(repair(&mut image, 0, 1, ALL), refused(9));
    assert_eq!(check(&image, 0, 1), refused(5));
    assert!(image == before);
    set_word(&mut image, 2, 8 + 249, 4);
    assert_eq!(repair(&mut image, 0, 1, ALL), malformed(2));
}

#[test]
fn ten_for_what_does_not_convert() {
    for call in [lbn_to_pda, lbn_to_lda, lbn_to_fileid, pda_to_lbn, lda_to_lbn, fileid_to_lbn] {
        assert_eq!(call(0, 60_000), refused(10));
        assert_eq!(call(4, 60_000), refused(1));
    }
    assert_eq!(pda_to_lbn(2, 0), refused(10));
    assert_eq!(lda_to_lbn(2, 0), refused(10));
}
