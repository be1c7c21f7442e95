//! Reading from sound partitions of every drive, with files of every length at which the index changes its form; each with
//! reserved bits in every LDA and without.

use perq::{raw, Drive};
use reference::sample::scattered;
use trials::both::Both;
use trials::call::Name;
use trials::draw::candidates;
use trials::images::{set_pair, shuffled, Place, DATA_WORD};
use trials::low_bits;
use trials::settings::rng;
use trials::sweep;

/// The last direct block, the first under a pointer block, the first under the second one, and the last that the file's own
/// block leads to without a double index.
const LENGTHS: [u32; 9] = [0, 1, 63, 64, 65, 191, 192, 193, 4_160];

fn pointer_blocks(length: u32) -> u32 {
    length.saturating_sub(64).div_ceil(128)
}

/// Reads all of a partition that must be sound and hold files of these lengths, as it is and with bits laid into its LDAs.
fn read_all(image: Vec<u8>, place: &Place, lengths: &[u32]) {
    for image in low_bits::both_ways(image, place, &mut rng(5)) {
        read_each(image, place, lengths);
    }
}

fn read_each(image: Vec<u8>, place: &Place, lengths: &[u32]) {
    let files = candidates(&image, place);
    assert_eq!(files.len(), lengths.len());
    let mut both = Both::new(image);
    let answer = both.call(&place.call(Name::Check));
    let owned: u32 = lengths.iter().map(|&length| 1 + length + pointer_blocks(length)).sum();
    let expected = (raw::DONE, lengths.len() as u32, owned, place.e - place.s - owned);
    assert_eq!((answer.outcome, answer.a, answer.b, answer.c), expected);
    sweep::partition(&mut both, place, &files);
    for f in files {
        sweep::file(&mut both, place, f);
        sweep::whole_file(&mut both, place, f);
    }
}

#[test]
fn hard_drives_with_files_of_every_length() {
    let mut rng = rng(2);
    for drive in 0..3 {
        let place = Place { drive, n: 5_200, s: 17, e: 5_150 };
        read_all(scattered(drive, place.n, place.s, place.e, &LENGTHS, 5), &place, &LENGTHS);
        read_all(shuffled(&place, &LENGTHS, &mut rng), &place, &LENGTHS);
    }
}

#[test]
fn floppies_with_files_of_every_length_that_fits() {
    let mut rng = rng(3);
    for lengths in [&LENGTHS[..6], &LENGTHS[6..8], &[0, 0, 400]] {
        let place = Place::whole(3, 432);
        read_all(scattered(3, 432, 1, 431, lengths, 6), &place, lengths);
        read_all(shuffled(&place, lengths, &mut rng), &place, lengths);
    }
}

#[test]
fn the_last_blocks_of_every_drive() {
    let mut rng = rng(4);
    for drive in Drive::ALL {
        let n = drive.blocks();
        let place = Place { drive: drive.number(), n, s: n - 420, e: n - 1 };
        read_all(shuffled(&place, &[0, 64, 193], &mut rng), &place, &[0, 64, 193]);
    }
}

#[test]
fn the_largest_partition_and_one_block_more() {
    let drive = Drive::Shugart24.number();
    let n = Drive::Shugart24.blocks();
    let place = Place { drive, n, s: 1_000, e: 1_000 + 32_766 };
    let image = scattered(drive, n, place.s, place.e, &[4_160, 4_160, 193, 0], 9);
    for image in low_bits::both_ways(image, &place, &mut rng(6)) {
        let mut both = Both::new(image);
        assert_eq!(both.call(&place.call(Name::Check)).a, 4);
        sweep::partition(&mut both, &place, &[]);
        let end = place.lda(place.e + 1);
        both.edit(|image| set_pair(image, place.s, DATA_WORD + 120, end));
        let answer = both.call(&place.call(Name::Check));
        assert_eq!((answer.outcome, answer.number), (raw::REFUSED, 2));
    }
}

#[test]
fn the_smallest_partition() {
    for drive in 0..4 {
        let place = Place { drive, n: 3, s: 1, e: 2 };
        read_all(scattered(drive, 3, 1, 2, &[], 0), &place, &[]);
        let place = Place { drive, n: 4, s: 1, e: 3 };
        read_all(scattered(drive, 4, 1, 3, &[0], 0), &place, &[0]);
    }
}

#[test]
fn two_partitions_of_one_image_do_not_see_each_other() {
    let first = Place { drive: 0, n: 120, s: 1, e: 59 };
    let second = Place { drive: 0, n: 120, s: 60, e: 119 };
    let mut image = scattered(0, 120, first.s, first.e, &[3, 0], 1);
    let other = scattered(0, 120, second.s, second.e, &[7], 2);
    image[528 * 60..].copy_from_slice(&other[528 * 60..]);
    read_all(image.clone(), &first, &[3, 0]);
    read_all(image, &second, &[7]);
}
