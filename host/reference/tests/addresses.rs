//! Conversions: exact both ways on every drive, and numbers 1 and 10.

mod common;
use common::*;
use reference::*;
use std::collections::HashMap;

type Call = fn(u32, u32) -> Answer;

const COUNTS: [u32; 4] = [24_210, 48_450, 69_552, 432];

/// A conversion done.
fn done(a: u32) -> Answer {
    Answer { a, ..Answer::default() }
}

#[test]
fn every_lbn_goes_there_and_back() {
    let pairs: [(Call, Call); 3] =
        [(lbn_to_pda, pda_to_lbn), (lbn_to_lda, lda_to_lbn), (lbn_to_fileid, fileid_to_lbn)];
    for (kind, (there, back)) in pairs.into_iter().enumerate() {
        for drive in 0..4 {
            let count = COUNTS[drive as usize];
            for lbn in 0..count + 2 {
                let answer = there(drive, lbn);
                if lbn >= count || (kind == 2 && drive != 3 && lbn >= 57_344) {
                    assert_eq!(answer, refused(10));
                } else {
                    assert_eq!(answer, done(answer.a));
                    assert_eq!(back(drive, answer.a), done(lbn));
                }
            }
            assert_eq!(there(drive, u32::MAX), refused(10));
        }
        for drive in [4, 5, u32::MAX] {
            assert_eq!(there(drive, 1), refused(1));
            assert_eq!(back(drive, 1), refused(1));
        }
    }
}

/// What is no address of any LBN is refused, in all low words under some high words. All bits of a PDA
/// count, and all of an LDA but bits 0-7.
#[test]
fn nothing_else_converts() {
    let pda_highs = [0, 1, 4, 5, 76, 77, 579, 580];
    let lda_highs = [0, 0xC000, 0xC10F, 0xC110, 0xC800, 0xE000, 0xE001, 0xE800];
    let kinds: [(Call, Call, [u32; 8], u32); 2] = [
        (lbn_to_pda, pda_to_lbn, pda_highs, 0xFFFF_FFFF),
        (lbn_to_lda, lda_to_lbn, lda_highs, 0xFFFF_FF00),
    ];
    for (there, back, highs, counting) in kinds {
        for drive in 0..4 {
            let known: HashMap<u32, u32> =
                (0..COUNTS[drive as usize]).map(|lbn| (there(drive, lbn).a, lbn)).collect();
            for address in
                highs.iter().flat_map(|high| (0..65536).map(move |low| low + 65536 * high))
            {
                let expected = match known.get(&(address & counting)) {
                    Some(&lbn) => done(lbn),
                    None => refused(10),
                };
                assert_eq!(back(drive, address), expected);
            }
            assert_eq!(back(drive, 0), refused(10));
            assert_eq!(back(drive, u32::MAX), refused(10));
        }
    }
}

#[test]
fn fileids_at_the_edges() {
    assert_eq!(fileid_to_lbn(0, 0), Answer::default());
    assert_eq!(fileid_to_lbn(0, 24_210), refused(10));
    assert_eq!(fileid_to_lbn(2, 57_343).a, 57_343);
    for fileid in [0, 431, 57_343, 57_344 + 432, u32::MAX] {
        assert_eq!(fileid_to_lbn(3, fileid), refused(10));
    }
    assert_eq!(lda_to_lbn(3, 0xE000_0100).a, 1);
    assert_eq!(lda_to_lbn(3, 0xC000_0100), refused(10));
    assert_eq!(lda_to_lbn(0, 0xE000_0100), refused(10));
    assert_eq!(lda_to_lbn(0, 0xC000_0101), done(1));
}
