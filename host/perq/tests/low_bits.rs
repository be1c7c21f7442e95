//! Bits 0-7 of an LDA's low word are reserved: new addresses have zeros there, and a call keeps them in an address that still
//! names its block. Each expectation here is worked out by hand, and every call is made on the reference too.

use reference::file::{
    direct_word, entry_word, indirect_word, DOUBLE, LAST_ADDRESS, LAST_NEGATIVE_ADDRESS,
};
use reference::image::ROOT_DIRECTORY;
use reference::image::{FREE_HEAD, FREE_TAIL, NUMBER_FREE, PARTITION_END, PARTITION_START, RECORD};
use reference::inspect::{file_blocks, free_chain};
use reference::sample::fresh;
use trials::both::Both;
use trials::call::Name;
use trials::cuts::{changed_blocks, every_limit};
use trials::draw::candidates;
use trials::images::{pair, set_pair, shuffled, Place, DATA_WORD};
use trials::low_bits::{self, LOW};
use trials::settings::rng;
use trials::sweep::must_be_sound;
use trials::tally::is_refusal;

/// The address in two data words of block b.
fn lda(image: &[u8], b: u32, word: usize) -> u32 {
    pair(image, b, DATA_WORD + word)
}

fn set_lda(image: &mut [u8], b: u32, word: usize, lda: u32) {
    set_pair(image, b, DATA_WORD + word, lda);
}

/// A partition with files of these lengths, in each LDA of which a reserved bit is set.
fn laid(place: &Place, lengths: &[u32]) -> Vec<u8> {
    let mut rng = rng(70);
    low_bits::laid(shuffled(place, lengths, &mut rng), place, &mut rng)
}

/// A fresh partition from 1 to 7 whose own block has other reserved bits in each LDA.
fn seven_blocks(drive: u32) -> (Place, Vec<u8>) {
    let place = Place::whole(drive, 8);
    let mut image = fresh(drive, 8, 1, 7);
    for (word, block, bits) in
        [(FREE_HEAD, 2, 1), (FREE_TAIL, 7, 2), (PARTITION_START, 1, 4), (PARTITION_END, 7, 128)]
    {
        assert_eq!(lda(&image, 1, word), place.lda(block));
        set_lda(&mut image, 1, word, place.lda(block) + bits);
    }
    (place, image)
}

/// FreeHead, FreeTail, PartitionStart and PartitionEnd name these blocks, with these bits.
fn must_have(image: &[u8], place: &Place, expected: [(u32, u32); 4]) {
    let words = [FREE_HEAD, FREE_TAIL, PARTITION_START, PARTITION_END];
    let found = words.map(|word| lda(image, place.s, word));
    assert_eq!(found, expected.map(|(block, bits)| place.lda(block) + bits));
}

#[test]
fn a_new_file_has_clean_addresses() {
    for drive in 0..4 {
        let (place, image) = seven_blocks(drive);
        let mut both = Both::new(image);
        // What a free block held does not stay.
        both.edit(|image| set_lda(image, 2, LAST_ADDRESS, place.lda(2) + 5));
        assert_eq!(every_limit(&mut both, &place.create(9)).a, 2);
        for word in [LAST_ADDRESS, LAST_NEGATIVE_ADDRESS] {
            assert_eq!(lda(both.image(), 2, word), place.lda(2));
        }
        must_have(both.image(), &place, [(3, 0), (7, 2), (1, 4), (7, 128)]);
        must_be_sound(&mut both, &place);
    }
}

#[test]
fn a_file_that_is_written_described_and_destroyed() {
    for drive in 0..4 {
        let (place, image) = seven_blocks(drive);
        let mut both = Both::new(image);
        both.call(&place.create(9));
        every_limit(&mut both, &place.write(2, 0, 1));
        for word in [direct_word(0), LAST_ADDRESS] {
            both.edit(|image| set_lda(image, 2, word, place.lda(3) + 77));
        }
        let before = both.image().to_vec();
        assert_eq!(every_limit(&mut both, &place.describe(2, "letter")).made, 1);
        every_limit(&mut both, &place.write(2, 0, 2));
        assert_eq!(changed_blocks(&before, both.image()), [2, 3]);
        let behind = RECORD * 2 + 16 + 104..RECORD * 3;
        assert_eq!(both.image()[behind.clone()], before[behind], "all but the description stays");
        both.edit(|image| set_lda(image, 1, FREE_HEAD, place.lda(4) + 9));
        every_limit(&mut both, &place.destroy(2));
        must_have(both.image(), &place, [(4, 9), (3, 0), (1, 4), (7, 128)]);
        // Chain 4, 5, 6, 7, 2, 3 becomes 2, 3, 4, 5, 6, 7.
        every_limit(&mut both, &place.call(Name::Repair));
        must_have(both.image(), &place, [(2, 0), (7, 0), (1, 4), (7, 128)]);
        must_be_sound(&mut both, &place);
    }
}

/// Appends to a file of so many blocks, all LDAs with reserved bits. Answers the place, the file, its pointer blocks after it
/// (the last one first), and the image before and after.
fn appended(drive: u32, length: u32) -> (Place, u32, Vec<u32>, [Vec<u8>; 2]) {
    let place = Place { drive, n: 240, s: 2, e: 238 };
    let before = laid(&place, &[length]);
    let f = candidates(&before, &place)[0];
    let mut both = Both::new(before.clone());
    every_limit(&mut both, &place.write(f, length, 1));
    must_be_sound(&mut both, &place);
    let mut blocks = file_blocks(both.image(), drive, place.s, f).expect("a file");
    blocks.truncate(blocks.iter().position(|&b| b == f).expect("its own block"));
    (place, f, blocks, [before, both.image().to_vec()])
}

#[test]
fn an_append_without_a_new_pointer_block_keeps_the_last_negative_address() {
    for drive in 0..4 {
        for length in [0, 1, 63, 65, 191, 193] {
            let (place, f, pointers, [before, after]) = appended(drive, length);
            let free = free_chain(&before, drive, place.s).expect("sound");
            let last_negative = lda(&before, f, LAST_NEGATIVE_ADDRESS);
            assert_ne!(last_negative & LOW, 0);
            assert_eq!(lda(&after, f, LAST_NEGATIVE_ADDRESS), last_negative, "at {length}");
            let (holder, word) = match length {
                0..64 => (f, direct_word(length)),
                _ => (pointers[0], entry_word((length - 64) % 128)),
            };
            assert_eq!(lda(&after, holder, word), place.lda(free[0]));
            assert_eq!(lda(&after, f, LAST_ADDRESS), place.lda(free[0]));
            assert_eq!(lda(&after, place.s, FREE_HEAD), place.lda(free[1]));
            must_keep_all_else(&before, &after, &place);
        }
    }
}

#[test]
fn an_append_with_a_new_pointer_block_writes_it_clean() {
    for drive in 0..4 {
        for length in [64, 192] {
            let (place, f, pointers, [before, after]) = appended(drive, length);
            let free = free_chain(&before, drive, place.s).expect("sound");
            assert_eq!(pointers[0], free[1]);
            let indirect = indirect_word((length - 64) / 128);
            for word in [LAST_NEGATIVE_ADDRESS, indirect] {
                assert_eq!(lda(&after, f, word), place.lda(free[1]), "at {length}");
            }
            let entries = (0..128).map(|entry| lda(&after, pointers[0], entry_word(entry)));
            assert!(entries.eq([place.lda(free[0])].into_iter().chain([0; 127])));
            assert_eq!(lda(&after, f, LAST_ADDRESS), place.lda(free[0]));
            assert_eq!(lda(&after, place.s, FREE_HEAD), place.lda(free[2]));
            must_keep_all_else(&before, &after, &place);
        }
    }
}

/// Every LDA that names the block that it named has its bits still.
fn must_keep_all_else(before: &[u8], after: &[u8], place: &Place) {
    let kept = low_bits::spots(before, place).into_iter().filter(|spot| {
        let same = (spot.get(before) ^ spot.get(after)) & !LOW == 0;
        assert!(!same || spot.get(before) == spot.get(after), "{spot:?}");
        same
    });
    assert!(kept.count() > 2, "FreeTail, Start and End at least");
}

#[test]
fn repair_keeps_the_bits_of_an_address_that_names_the_block_still() {
    for drive in 0..4 {
        let (place, image) = seven_blocks(drive);
        // What stands in FreeHead and FreeTail, and what repair must leave there: blocks 2 to 7 are free.
        let other = 65_536 * if drive == 3 { 0o140000 } else { 0o160000 };
        for (word, old, new) in [
            (FREE_HEAD, place.lda(2) + 255, place.lda(2) + 255),
            (FREE_HEAD, place.lda(2), place.lda(2)),
            (FREE_HEAD, place.lda(3) + 255, place.lda(2)),
            (FREE_HEAD, place.lda(7) + 2, place.lda(2)),
            (FREE_HEAD, 0, place.lda(2)),
            (FREE_HEAD, 255, place.lda(2)),
            (FREE_HEAD, other + 512 + 1, place.lda(2)),
            (FREE_HEAD, place.pda(2), place.lda(2)),
            (FREE_TAIL, place.lda(7) + 128, place.lda(7) + 128),
            (FREE_TAIL, place.lda(6) + 128, place.lda(7)),
            (FREE_TAIL, 128, place.lda(7)),
        ] {
            let mut both = Both::new(image.clone());
            both.edit(|image| set_lda(image, 1, word, old));
            both.edit(|image| set_pair(image, 1, DATA_WORD + NUMBER_FREE, 99));
            assert!(is_refusal(both.call(&place.call(Name::Check)), 5));
            every_limit(&mut both, &place.call(Name::Repair));
            assert_eq!(lda(both.image(), 1, word), new, "{old:o} O on drive {drive}");
            must_be_sound(&mut both, &place);
        }
    }
}

#[test]
fn a_nil_entry_with_reserved_bits_is_malformed_in_a_file_block() {
    let place = Place { drive: 2, n: 300, s: 3, e: 297 };
    let image = laid(&place, &[3, 70]);
    for f in candidates(&image, &place) {
        let unused = [direct_word(63), indirect_word(1), indirect_word(31), DOUBLE, DOUBLE + 2];
        let unused = unused.into_iter().filter(|&word| lda(&image, f, word) == 0);
        for (word, bits) in unused.flat_map(|word| [(word, 1), (word, LOW)]) {
            let mut both = Both::new(image.clone());
            both.edit(|image| set_lda(image, f, word, bits));
            for name in [Name::Check, Name::Repair, Name::Create, Name::Destroy, Name::Show] {
                let answer = both.call(&place.call(name).with_file(f));
                assert!(is_refusal(answer, 4) && answer.block == f, "{name:?}: {answer:?}");
            }
        }
    }
}

#[test]
fn a_nil_entry_with_reserved_bits_in_a_last_pointer_block_is_made_nil_by_repair() {
    let place = Place { drive: 1, n: 300, s: 3, e: 297 };
    let image = laid(&place, &[194]);
    let f = candidates(&image, &place)[0];
    let last = file_blocks(&image, place.drive, place.s, f).expect("a file")[0];
    for entry in [2, 3, 64, 127] {
        let mut both = Both::new(image.clone());
        both.edit(|image| set_lda(image, last, entry_word(entry), 16));
        assert!(is_refusal(both.call(&place.call(Name::Check)), 5));
        assert!(is_refusal(both.call(&place.write(f, 0, 1)), 5));
        every_limit(&mut both, &place.call(Name::Repair));
        assert_eq!(lda(both.image(), last, entry_word(entry)), 0);
        assert_ne!(lda(both.image(), last, entry_word(1)) & LOW, 0, "a used one keeps its bits");
        must_be_sound(&mut both, &place);
    }
}

#[test]
fn reserved_bits_alone_are_no_address_in_a_partition_block() {
    let (place, image) = seven_blocks(0);
    for (word, name, number) in [
        (FREE_HEAD, Name::Check, 5),
        (FREE_TAIL, Name::Check, 5),
        (PARTITION_START, Name::Check, 2),
        (PARTITION_END, Name::Repair, 2),
        (ROOT_DIRECTORY, Name::LookUp, 6),
        (ROOT_DIRECTORY, Name::Tree, 6),
    ] {
        for bits in [1, 64, LOW] {
            let mut both = Both::new(image.clone());
            both.edit(|image| set_lda(image, 1, word, bits));
            let answer = both.call(&place.call(name));
            assert!(is_refusal(answer, number), "{name:?} with {bits} at {word}: {answer:?}");
        }
    }
}
