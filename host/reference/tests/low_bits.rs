//! Bits 0-7 of an LDA, request 2: what decodes, and that check and the reading calls do not look at
//! them. What the changing calls do with them is in low_bits_kept.rs.

mod common;
use common::low_bits::*;
use common::*;
use reference::*;

/// Blocks of the drive, and the LDA of its LBN 0.
const DRIVES: [(u32, u32); 4] =
    [(24_210, 0xC000_0000), (48_450, 0xC000_0000), (69_552, 0xC000_0000), (432, 0xE000_0000)];

#[test]
fn every_low_byte_decodes_on_every_drive() {
    for (drive, (blocks, first)) in (0..).zip(DRIVES) {
        for lbn in 0..blocks {
            for bits in 0..=255 {
                assert_eq!(lda_to_lbn(drive, first + 256 * lbn + bits), done(lbn, 0));
            }
        }
    }
}

/// LBN to LDA to LBN is exact, the other way gives the cleaned address.
#[test]
fn both_round_trips() {
    for (drive, (blocks, first)) in (0..).zip(DRIVES) {
        for lbn in 0..blocks {
            let lda = lbn_to_lda(drive, lbn).a;
            assert_eq!(lda, first + 256 * lbn);
            assert_eq!(lda_to_lbn(drive, lda), done(lbn, 0));
            let smeared = lda + 1 + lbn % 255;
            assert_eq!(lbn_to_lda(drive, lda_to_lbn(drive, smeared).a), done(lda, 0));
        }
    }
    // M1 and M5 with low bits: 151125 140000 O and 127777 140417 O.
    assert_eq!(lda_to_lbn(1, 0o151125 + 65536 * 0o140000), done(210, 0));
    assert_eq!(lda_to_lbn(2, 0o127777 + 65536 * 0o140417), done(69_551, 0));
}

#[test]
fn other_bits_count_as_before() {
    for (drive, (blocks, first)) in (0..).zip(DRIVES) {
        let other_kind = first ^ 0x2000_0000;
        for bits in 0..=255 {
            // Nil and what has only low bits; behind the last LBN; the other kind of drive; bits 14 and
            // 15 of the high word clear, and bits 11 and 12 set.
            assert_eq!(lda_to_lbn(drive, bits), refused(10));
            assert_eq!(lda_to_lbn(drive, first + 256 * blocks + bits), refused(10));
            assert_eq!(lda_to_lbn(drive, other_kind + 256 * 7 + bits), refused(10));
            for flip in [0x4000_0000, 0x8000_0000, 0x0800_0000, 0x1000_0000] {
                assert_eq!(lda_to_lbn(drive, (first + 256 * 7 + bits) ^ flip), refused(10));
            }
        }
    }
}

/// Drive 0: sector 30 is PDA 000040 O of LBN 0; all eight low bits are a PDA's own.
#[test]
fn pdas_have_no_reserved_bits() {
    for bits in 0..30 {
        assert_eq!(pda_to_lbn(0, 0o40 + bits), done(bits, 0));
    }
    assert_eq!(pda_to_lbn(0, 0o40 + 30), refused(10));
    assert_eq!(pda_to_lbn(0, 0o40 + 31), refused(10));
}

/// Data blocks of the files at 6 to 10. They own 203 + 1 + 4 + 65 + 67 blocks.
const LENGTHS: [u32; 5] = [200, 0, 3, 64, 65];

/// Every call that reads answers as it does on the clean image.
fn reads_alike(clean: &[u8], image: &[u8], drive: u32) {
    for (f, length) in (6..).zip(LENGTHS) {
        assert_eq!(next_file(image, drive, 5, f - 1), done(f, 0));
        let words = |image| {
            let mut words = [1; 104];
            (description(image, drive, 5, f, &mut words), words)
        };
        assert_eq!(words(image), words(clean));
        for r in (0..=length).chain([4_159, 4_160, 32_766, 32_767]) {
            assert_eq!(show(image, drive, 5, f, r), show(clean, drive, 5, f, r));
            let block = |image| {
                let mut block = [1; 512];
                (read(image, drive, 5, f, r, &mut block), block)
            };
            assert_eq!(block(image), block(clean));
        }
    }
    assert_eq!(next_file(image, drive, 5, 10), absent());
}

#[test]
fn a_partition_with_low_bits_in_every_lda_is_sound() {
    for drive in 0..4 {
        let clean = sample::scattered(drive, 432, 5, 420, &LENGTHS, 3);
        let mut image = clean.clone();
        let files = (6..).zip(LENGTHS);
        let in_files = files.flat_map(|(f, length)| ldas_of_file(&clean, f, length));
        let places: Vec<Place> = ldas_of_pib(5).into_iter().chain(in_files).collect();
        // Four of the PIB; two of each file's fields, one for each of 332 data and 3 pointer blocks.
        assert_eq!(places.len(), 4 + 2 * 5 + 332 + 3);
        lay_low_bits(&mut image, &places);
        assert!(places.iter().all(|&(b, at)| word(&image, b, at) & 0xFF != 0));
        assert_eq!(check(&image, drive, 5), Answer { a: 5, b: 340, c: 75, ..Answer::default() });
        reads_alike(&clean, &image, drive);
    }
}

/// A floppy's partition 1..420 with a file at 2: data 3 to 66, pointer block 68, data 67 and 69 to 73.
fn file_of_70() -> Vec<u8> {
    sample::scattered(3, 432, 1, 420, &[70], 5)
}

#[test]
fn only_low_bits_are_no_address() {
    let image = file_of_70();
    // Direct entries 0 and 63, indirect entry 0, entries 0 and 5 of the pointer block, both last addresses.
    let in_file = [(2, 52), (2, 178), (2, 180), (68, 0), (68, 10), (2, 251), (2, 254)];
    for bits in [1, 7, 0x80, 0xFF] {
        let spoilt = |b, data: usize| with(&image, &[], &[(b, 8 + data, bits)]);
        for (b, data) in in_file {
            assert_eq!(check(&spoilt(b, data), 3, 1), malformed(2));
            assert_eq!(show(&spoilt(b, data), 3, 1, 2, 0), malformed(2));
            assert_eq!(next_file(&spoilt(b, data), 3, 1, 0), absent());
        }
        for free_end in [0, 2] {
            assert_eq!(check(&spoilt(1, free_end), 3, 1), refused(5));
        }
        for partition_end in [118, 120] {
            assert_eq!(check(&spoilt(1, partition_end), 3, 1), refused(2));
        }
    }
}

#[test]
fn only_low_bits_are_not_nil() {
    let image = file_of_70();
    let short = sample::scattered(3, 432, 1, 420, &[3], 5);
    for bits in [1, 7, 0x80, 0xFF] {
        // Direct entries 3 and 63 of the short file; indirect entries 1 and 31, and the double index.
        for (image, data) in [
            (&short, 58),
            (&short, 178),
            (&image, 182),
            (&image, 242),
            (&image, 244),
            (&image, 246),
        ] {
            let spoilt = with(image, &[], &[(2, 8 + data, bits)]);
            assert_eq!(check(&spoilt, 3, 1), malformed(2));
            assert_eq!(repair(&mut spoilt.clone(), 3, 1, ALL), malformed(2));
        }
        // Entries 6 and 127 of the pointer block: not sound, and repair makes them nil.
        for entry in [6, 127] {
            let mut spoilt = with(&image, &[], &[(68, 8 + 2 * entry, bits)]);
            assert_eq!(check(&spoilt, 3, 1), refused(5));
            assert_eq!(repair(&mut spoilt, 3, 1, ALL), made(420));
            assert_eq!(pair(&spoilt, 68, 8 + 2 * entry), 0);
            assert_eq!(check(&spoilt, 3, 1).outcome, DONE);
        }
    }
}

/// NumberFree and a header's links are no LDAs.
#[test]
fn low_bits_of_other_words_count() {
    let image = file_of_70();
    for (b, at) in [(1, 8 + 4), (3, 4), (3, 6), (100, 4), (100, 6)] {
        let spoilt = with(&image, &[], &[(b, at, pair(&image, b, at) ^ 1)]);
        assert_eq!(check(&spoilt, 3, 1), refused(5));
    }
    // The FIB's double index and an entry that should be nil stay wrong with an address in them.
    for data in [182, 244] {
        let spoilt = with(&image, &[], &[(2, 8 + data, 0xE000_0307)]);
        assert_eq!(check(&spoilt, 3, 1), malformed(2));
    }
}

/// Low bits do not make an address of another block right.
#[test]
fn an_address_of_another_block_is_wrong_with_low_bits_too() {
    let image = file_of_70();
    let other = |b, data: usize| {
        let smeared = pair(&image, b, 8 + data) + 256 + 7;
        check(&with(&image, &[], &[(b, 8 + data, smeared)]), 3, 1)
    };
    for (b, data) in [(2, 52), (2, 180), (68, 0), (2, 251), (2, 254)] {
        assert_eq!(other(b, data), malformed(2));
    }
    assert_eq!((other(1, 0), other(1, 2), other(1, 118)), (refused(5), refused(5), refused(2)));
}
