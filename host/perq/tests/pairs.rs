//! Showing a block from a pair, and the typed answers: parts of the caller's own images.

use perq::{Drive, NameFault, Presence, Refusal, Source, Summary};
use reference::image::RECORD;
use reference::sample::{content, fresh, named, scattered};
use trials::both::Both;
use trials::call::{Call, Name};
use trials::images::{set_word, DATA_WORD};

const DRIVE: Drive = Drive::Micropolis35;

/// Files 2 (three blocks) and 3 (empty).
fn image(seed: u64) -> Vec<u8> {
    scattered(DRIVE.number(), 40, 1, 39, &[3, 0], seed)
}

/// The same with file 2 malformed.
fn malformed(seed: u64) -> Vec<u8> {
    let mut image = image(seed);
    set_word(&mut image, 2, DATA_WORD + 249, 99);
    image
}

/// Whether the bytes are block b of the image itself, and not a copy.
fn is_part(bytes: &[u8], image: &[u8], b: usize) -> bool {
    std::ptr::eq(bytes, &image[RECORD * b + 16..RECORD * (b + 1)])
}

fn block_of(image: &[u8], r: u32) -> usize {
    reference::show(image, DRIVE.number(), 1, 2, r).a as usize / RECORD
}

#[test]
fn a_shown_block_is_a_part_of_the_image() {
    let image = image(1);
    for r in 0..3 {
        let bytes = perq::show(&image, DRIVE, 1, 2, r).expect("a file").expect("a block");
        assert!(is_part(bytes, &image, block_of(&image, r)));
        assert_eq!(bytes, content(1, 0, r));
    }
    for r in [3, 4_159, 4_160, 32_766] {
        assert_eq!(perq::show(&image, DRIVE, 1, 2, r), Ok(None));
    }
    assert_eq!(perq::show(&image, DRIVE, 1, 2, 32_767), Err(Refusal::Range));
    assert_eq!(perq::show(&image, DRIVE, 1, 4, 0), Err(Refusal::NoFile));
}

#[test]
fn the_repaired_image_answers_unless_it_refuses() {
    let (original, repaired, broken) = (image(1), image(2), malformed(2));
    let shown = perq::show_pair(&original, &repaired, DRIVE, 1, 2, 1).expect("a file");
    assert_eq!(shown.from, Source::Repaired);
    assert!(is_part(shown.bytes.expect("a block"), &repaired, block_of(&repaired, 1)));

    let shown = perq::show_pair(&original, &broken, DRIVE, 1, 2, 1).expect("a file");
    assert_eq!(shown.from, Source::Original);
    assert!(is_part(shown.bytes.expect("a block"), &original, block_of(&original, 1)));
}

#[test]
fn absent_in_the_repaired_image_is_an_answer() {
    let repaired = scattered(DRIVE.number(), 40, 1, 39, &[1, 0], 2);
    let original = image(1);
    let shown = perq::show_pair(&original, &repaired, DRIVE, 1, 2, 1).expect("a file");
    assert_eq!((shown.from, shown.bytes), (Source::Repaired, None));
}

#[test]
fn when_both_refuse_the_refusal_is_the_original_s() {
    assert_eq!(
        perq::show_pair(&malformed(1), &[], DRIVE, 1, 2, 0),
        Err(Refusal::Malformed { block: 2 })
    );
    let none = fresh(DRIVE.number(), 40, 1, 39);
    assert_eq!(perq::show_pair(&none, &malformed(1), DRIVE, 1, 2, 0), Err(Refusal::NoFile));
}

#[test]
fn every_pair_of_such_images_as_the_reference_has_it() {
    let short = image(1)[..RECORD * 30].to_vec();
    let images = [
        image(1),
        image(2),
        malformed(3),
        fresh(2, 40, 1, 39),
        scattered(2, 40, 1, 39, &[1], 5),
        short,
        vec![],
    ];
    for original in &images {
        let mut both = Both::new(original.clone());
        for repaired in &images {
            let of_2 = [0, 1, 2, 3, 4_160, 32_766, 32_767].map(|r| (2, r));
            for (f, r) in of_2.into_iter().chain([(3, 0), (4, 0), (0, 0)]) {
                let call = Call::new(Name::ShowPair, DRIVE.number(), 1).with_file(f).with_block(r);
                both.call_with(&call, repaired);
            }
        }
    }
}

#[test]
fn typed_answers_of_the_other_reading_calls() {
    let image = image(1);
    let mut buffer = [1; 512];
    assert_eq!(perq::check(&image, DRIVE, 1), Ok(Summary { files: 2, owned: 5, free: 33 }));
    assert_eq!(perq::next_file(&image, DRIVE, 1, 2), Ok(Some(3)));
    assert_eq!(perq::next_file(&image, DRIVE, 1, 3), Ok(None));
    assert_eq!(perq::files(&image, DRIVE, 1).map(Iterator::collect), Ok(vec![2, 3]));
    assert_eq!(perq::read(&image, DRIVE, 1, 2, 2, &mut buffer), Ok(Presence::Present));
    assert_eq!(buffer, content(1, 0, 2));
    assert_eq!(perq::read(&image, DRIVE, 1, 2, 3, &mut buffer), Ok(Presence::Absent));
    assert_eq!(buffer, [0; 512]);
    assert_eq!(perq::description(&image, DRIVE, 1, 2), Ok([0; 104]));
    let whole = [content(1, 0, 0), content(1, 0, 1), content(1, 0, 2)].concat();
    assert_eq!(perq::whole_file(&image, DRIVE, 1, 2), Ok(whole));
    assert_eq!(perq::whole_file(&image, DRIVE, 1, 3), Ok(vec![]));
    assert_eq!(perq::whole_file(&image, DRIVE, 1, 4), Err(Refusal::NoFile));
    assert_eq!(perq::whole_file(&image, DRIVE, 1, u32::MAX), Err(Refusal::NoFile));
    assert_eq!(perq::whole_file(&malformed(1), DRIVE, 1, 2), Err(Refusal::Malformed { block: 2 }));
    assert_eq!(perq::extract(&image, DRIVE, 1, 2, &mut buffer), Err(Refusal::Buffer));
}

#[test]
fn typed_answers_of_the_changing_calls() {
    let drive = Drive::Shugart12;
    let mut image = perq::blank(drive, 8, 1, 7).expect("a partition");
    assert_eq!(image.len(), 8 * RECORD);
    assert_eq!(perq::repair(&mut image, drive, 1, perq::ALL), Ok(7));
    assert_eq!(
        perq::create(&mut image, drive, 1, 0, perq::ALL),
        Ok(perq::Created { file: 2, made: 3 })
    );
    assert_eq!(perq::write(&mut image, drive, 1, 2, 0, &content(0, 0, 0), perq::ALL), Ok(4));
    let letter = named(b"letter");
    assert_eq!(perq::describe(&mut image, drive, 1, 2, &letter, perq::ALL), Ok(1));
    let bad = NameFault::Reserved { place: 3, byte: b':' };
    assert_eq!(perq::name(&named(b"no:name")), Err(bad));
    assert_eq!(
        perq::describe(&mut image, drive, 1, 2, &named(b"no:name"), perq::ALL),
        Err(Refusal::Name(bad))
    );
    assert_eq!(perq::description(&image, drive, 1, 2), Ok(letter));
    assert_eq!(perq::destroy(&mut image, drive, 1, 2, 2), Ok(2));
    assert_eq!(perq::check(&image, drive, 1), Err(perq::Refusal::Unsound));
    assert_eq!(perq::blank(drive, 8, 0, 7), Err(perq::Refusal::Partition));
    assert_eq!(perq::blank(drive, 8, 1, 8), Err(perq::Refusal::Partition));
    assert_eq!(perq::blank(Drive::Floppy, 433, 1, 7), Err(perq::Refusal::Image));
}
