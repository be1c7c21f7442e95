//! The six conversions against the reference: every block of every drive, every FileID of 16 bits, numbers that only
//! just miss, and random ones.

use perq::{raw, Drive, Refusal};
use reference::Answer;
use trials::call::{on_library, on_reference, Call, Name};
use trials::settings::{cases, rng};

const DRIVES: [u32; 7] = [0, 1, 2, 3, 4, 5, u32::MAX];

/// Both sides' answer to a conversion, which must be one and the same.
fn convert(name: Name, drive: u32, number: u32) -> Answer {
    let call = Call::conversion(name, drive, number);
    let ours = on_library(&call, &mut [], &[], &mut []);
    let theirs = on_reference(&call, &mut [], &[], &mut []);
    assert_eq!(ours, theirs, "{name:?} of {number} on drive {drive}");
    ours
}

fn blocks(drive: u32) -> u32 {
    Drive::from_number(drive).map_or(100, Drive::blocks)
}

/// The ways there, each with the way back.
const WAYS: [(Name, Name); 3] = [
    (Name::LbnToPda, Name::PdaToLbn),
    (Name::LbnToLda, Name::LdaToLbn),
    (Name::LbnToFileid, Name::FileidToLbn),
];

#[test]
fn every_block_there_and_back() {
    for drive in DRIVES {
        for lbn in 0..blocks(drive) + 300 {
            for (there, back) in WAYS {
                let address = convert(there, drive, lbn);
                if address.outcome == raw::DONE {
                    assert_eq!(
                        convert(back, drive, address.a).a,
                        lbn,
                        "{back:?} of {lbn} on drive {drive}"
                    );
                }
            }
        }
    }
}

#[test]
fn which_blocks_have_which_addresses() {
    for drive in 0..4 {
        let count = |name| {
            let done = |&lbn: &u32| convert(name, drive, lbn).outcome == raw::DONE;
            (0..70_000).filter(done).count() as u32
        };
        assert_eq!(count(Name::LbnToPda), blocks(drive));
        assert_eq!(count(Name::LbnToLda), blocks(drive));
        assert_eq!(count(Name::LbnToFileid), blocks(drive).min(57_344));
    }
}

#[test]
fn every_fileid_of_16_bits_and_some_above() {
    for drive in DRIVES {
        for fileid in 0..66_000 {
            let lbn = convert(Name::FileidToLbn, drive, fileid);
            if lbn.outcome == raw::DONE {
                assert_eq!(convert(Name::LbnToFileid, drive, lbn.a).a, fileid);
            }
        }
    }
}

#[test]
fn numbers_that_just_miss_an_address() {
    for drive in 0..4 {
        for lbn in (0..blocks(drive)).step_by(7).chain([blocks(drive) - 1]) {
            for address in
                [reference::lbn_to_pda(drive, lbn).a, reference::lbn_to_lda(drive, lbn).a]
            {
                let flipped = (0..32).map(|bit| address ^ 1 << bit);
                let beside =
                    [address.wrapping_add(1), address.wrapping_sub(1), address.rotate_left(16)];
                for near in flipped.chain(beside).chain([address]) {
                    convert(Name::PdaToLbn, drive, near);
                    convert(Name::LdaToLbn, drive, near);
                }
            }
        }
    }
}

#[test]
fn every_low_word_of_an_address_under_the_likely_high_words() {
    for drive in 0..4 {
        for high in [
            0, 1, 2, 4, 5, 0o114, 0o115, 0o1103, 0o1104, 0x8000, 0xC000, 0xC001, 0xC110, 0xE000,
            0xE001, 0xE002,
        ] {
            for low in 0..65_536 {
                convert(Name::PdaToLbn, drive, high * 65_536 + low);
                convert(Name::LdaToLbn, drive, high * 65_536 + low);
            }
        }
    }
}

#[test]
fn random_numbers() {
    let mut rng = rng(1);
    for _ in 0..cases(200_000) {
        let drive = DRIVES[rng.below(7) as usize];
        let number = (rng.number() as u32) >> rng.below(32);
        for name in Name::CONVERSIONS {
            convert(name, drive, number);
        }
    }
}

#[test]
fn a_drive_that_is_none_is_refused_before_the_number() {
    for drive in [4, 5, u32::MAX] {
        for name in Name::CONVERSIONS {
            for number in [0, 210, u32::MAX] {
                let answer = convert(name, drive, number);
                assert_eq!((answer.outcome, answer.number), (raw::REFUSED, 1));
            }
        }
    }
}

#[test]
fn nil_and_the_first_numbers_past_a_drive_are_refused() {
    for drive in Drive::ALL {
        assert_eq!(perq::pda_to_lbn(drive, 0), Err(Refusal::Address));
        assert_eq!(perq::lda_to_lbn(drive, 0), Err(Refusal::Address));
        assert_eq!(perq::lbn_to_pda(drive, drive.blocks()), Err(Refusal::Address));
        assert_eq!(perq::lbn_to_lda(drive, drive.blocks()), Err(Refusal::Address));
        assert_eq!(perq::lbn_to_fileid(drive, drive.blocks()), Err(Refusal::Address));
        assert_eq!(perq::fileid_to_lbn(drive, 65_536), Err(Refusal::Address));
    }
    // FileID 0 of a hard drive is block 0; it is not nil.
    assert_eq!(perq::fileid_to_lbn(Drive::Shugart12, 0), Ok(0));
    assert_eq!(perq::fileid_to_lbn(Drive::Floppy, 0), Err(Refusal::Address));
}

/// The reserved bits are 0-7 of an LDA's low word. Back from the block comes the address without them.
#[test]
fn every_value_of_the_reserved_bits_names_the_same_block() {
    for drive in 0..4 {
        let mark = if drive == 3 { 0o160000 } else { 0o140000 };
        for lbn in (0..blocks(drive)).step_by(7).chain([blocks(drive) - 1]) {
            let clean = 65_536 * (mark + lbn / 256) + 256 * (lbn % 256);
            assert_eq!(convert(Name::LbnToLda, drive, lbn).a, clean);
            for address in clean..=clean + 255 {
                let answer = convert(Name::LdaToLbn, drive, address);
                assert_eq!((answer.outcome, answer.a), (raw::DONE, lbn), "{address:o} O");
            }
        }
    }
}

#[test]
fn reserved_bits_make_no_address_of_what_is_none() {
    for drive in 0..4 {
        let last = reference::lbn_to_lda(drive, blocks(drive) - 1).a;
        let other = if drive == 3 { 0o140000 } else { 0o160000 };
        // Nil, the block after the last, another kind of drive's address, and bit 15 or 14 of the high word clear.
        for none in [0, last + 256, 65_536 * other, last - (1 << 31), last - (1 << 30)] {
            for address in none..=none + 255 {
                let answer = convert(Name::LdaToLbn, drive, address);
                assert_eq!((answer.outcome, answer.number), (raw::REFUSED, 10), "{address:o} O");
            }
        }
    }
}
