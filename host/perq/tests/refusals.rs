//! Every refusal: seen by itself, seen before all that come after it in the call's order, and nothing touched.

use perq::{raw, Drive};
use reference::image::RECORD;
use reference::sample::{named, scattered};
use reference::tree_sample::set_root;
use trials::both::Both;
use trials::call::{Call, Name};
use trials::images::{pair, set_pair, set_word, word, Place, DATA_WORD};
use trials::low_bits;
use trials::settings::rng;
use trials::tally::{is_refusal, refusals};

/// A full partition: file 2 of 64 blocks, file 3 without any, one free block. File 2 is the root directory; what stands in
/// it are random bytes, but for 11.
const PLACE: Place = Place { drive: 3, n: 70, s: 1, e: 68 };
const FILE: u32 = 2;

fn full_image() -> Vec<u8> {
    image_with(64)
}

/// The same with room for more.
fn roomy_image() -> Vec<u8> {
    image_with(60)
}

fn image_with(length: u32) -> Vec<u8> {
    let mut image = scattered(PLACE.drive, PLACE.n, PLACE.s, PLACE.e, &[length, 0], 4);
    set_root(&mut image, PLACE.s, PLACE.lda(FILE));
    image
}

/// A call on file 2 that is done, with every argument as it should be. A write replaces block 0.
fn fine(name: Name, image: &[u8]) -> Call {
    let call = Call::new(name, PLACE.drive, PLACE.s).with_file(FILE);
    if name == Name::Describe {
        return call.with_buffer(&named(b"letters>first.text"));
    }
    let length = word(image, FILE, DATA_WORD + 250).wrapping_add(1);
    call.with_buffer(&vec![0xA5; right_length(name, usize::from(length))])
}

fn right_length(name: Name, blocks: usize) -> usize {
    match name {
        Name::Read | Name::Write => 512,
        Name::Description => 104,
        Name::Extract => 512 * blocks,
        Name::Tree => 32 * 9,
        _ => 0,
    }
}

/// What brings a refusal about: the cause of its number, or for 3 the hash rule's length instead of the buffer's.
#[derive(Clone, Copy, Debug, PartialEq, Eq)]
enum Cause {
    Number(u32),
    Rule,
}

impl Cause {
    fn number(self) -> u32 {
        match self {
            Cause::Number(number) => number,
            Cause::Rule => 3,
        }
    }

    /// Brings it about; causes can be brought about together.
    fn bring_about(self, image: &mut [u8], call: &mut Call) {
        match self {
            Cause::Number(number) => cause(number, image, call),
            Cause::Rule => call.rule.push(0),
        }
    }
}

/// The causes of a call's refusals in the order in which they are looked for. 9 has a test of its own.
fn causes(name: Name) -> Vec<Cause> {
    let of = |&number: &u32| match (number, name) {
        (9, _) => vec![],
        (3, Name::LookUp) => vec![Cause::Rule],
        (3, Name::Tree) => vec![Cause::Rule, Cause::Number(3)],
        _ => vec![Cause::Number(number)],
    };
    refusals(name).iter().flat_map(of).collect()
}

fn cause(number: u32, image: &mut [u8], call: &mut Call) {
    match number {
        1 => call.drive = 4,
        2 => {
            let start = pair(image, PLACE.s, DATA_WORD + 118);
            set_pair(image, PLACE.s, DATA_WORD + 118, start + 256);
        }
        3 => call.buffer.push(0),
        4 => {
            // Blocks in use is one too many; in the other file too, so that the lowest is named.
            for f in [FILE, FILE + 1] {
                let in_use = word(image, f, DATA_WORD + 249);
                set_word(image, f, DATA_WORD + 249, in_use + 1);
            }
        }
        5 => {
            let free = pair(image, PLACE.s, DATA_WORD + 4);
            set_pair(image, PLACE.s, DATA_WORD + 4, free + 1);
        }
        6 if Name::DIRECTORIES.contains(&call.name) => set_root(image, PLACE.s, 0),
        6 => call.f = PLACE.s,
        7 => call.r = 32_767,
        8 if call.name == Name::Write && call.r == 0 => call.r = 64,
        8 => {}
        11 => {
            name_itself(image);
            call.path = b"D>D>D>D>D>D>D>D>D>D".to_vec();
        }
        // The first character becomes one that no name may have.
        12 => call.buffer[23] = b'<',
        _ => unreachable!("{number} has a test of its own"),
    }
}

/// The first entry of file 2 becomes D, which names file 2, a directory: nine rows go down to the tenth level, and so do ten
/// names.
fn name_itself(image: &mut [u8]) {
    set_word(image, FILE, DATA_WORD + 8, 3);
    let first = reference::lda_to_lbn(PLACE.drive, pair(image, FILE, DATA_WORD + 52)).a;
    set_word(image, first, DATA_WORD, 1);
    set_pair(image, first, DATA_WORD + 1, PLACE.lda(FILE));
    set_word(image, first, DATA_WORD + 3, u16::from_le_bytes([1, b'D']));
}

/// The call with these causes, on an image that has just one free block if 8 is among them; without reserved bits in its
/// LDAs, and with some in each.
fn calls_under(name: Name, causes: &[Cause]) -> [(Both, Call); 2] {
    let full = causes.contains(&Cause::Number(8));
    let image = if full { full_image() } else { roomy_image() };
    low_bits::both_ways(image, &PLACE, &mut rng(60)).map(|mut image| {
        let mut call = fine(name, &image);
        causes.iter().for_each(|cause| cause.bring_about(&mut image, &mut call));
        (Both::new(image), call)
    })
}

/// The call is refused by the first of these causes.
fn must_refuse(name: Name, causes: &[Cause]) {
    let number = causes[0].number();
    for (mut both, call) in calls_under(name, causes) {
        let before = both.image().to_vec();
        let (answer, buffer) = both.call_with(&call, &[]);
        assert!(is_refusal(answer, number), "{name:?} under {causes:?}: {answer:?}");
        assert_eq!(answer.block, if [4, 11].contains(&number) { FILE } else { 0 });
        assert_eq!(answer.made, 0);
        let is_untouched = both.image() == before && buffer == call.buffer;
        assert!(is_untouched, "{name:?} under {causes:?} has stored");
    }
}

/// The calls on one image.
fn on_an_image() -> impl Iterator<Item = Name> {
    let all = Name::READING.into_iter().chain(Name::CHANGING);
    all.filter(|name| *name != Name::ShowPair)
}

#[test]
fn nothing_is_refused_when_all_is_well() {
    for name in on_an_image() {
        for (mut both, call) in calls_under(name, &[]) {
            assert_ne!(both.call(&call).outcome, raw::REFUSED, "{name:?}");
        }
    }
}

#[test]
fn each_refusal_by_itself() {
    for name in on_an_image() {
        for cause in causes(name) {
            must_refuse(name, &[cause]);
        }
    }
}

#[test]
fn each_refusal_before_every_later_one() {
    for name in on_an_image() {
        let order = causes(name);
        for (i, &first) in order.iter().enumerate() {
            must_refuse(name, &order[i..]);
            for &later in &order[i + 1..] {
                must_refuse(name, &[first, later]);
            }
        }
    }
}

#[test]
fn only_the_file_that_is_named_is_asked_about_when_reading_it() {
    for name in [Name::Read, Name::Show, Name::Description, Name::Extract] {
        for (mut both, call) in calls_under(name, &[]) {
            both.edit(|image| set_word(image, FILE + 1, DATA_WORD + 249, 9));
            let answer = both.call(&call);
            assert_eq!(answer.outcome, raw::DONE, "{name:?} of a file beside a malformed one");
            let answer = both.call(&call.with_file(FILE + 1));
            assert!(is_refusal(answer, 4) && answer.block == FILE + 1, "{name:?}: {answer:?}");
        }
    }
}

#[test]
fn images_of_a_wrong_length() {
    for name in on_an_image() {
        let image = roomy_image();
        let call = fine(name, &image);
        for length in [0, 1, 527, 529, image.len() - 1, image.len() + 1, RECORD * 433] {
            let mut both = Both::new(image.clone());
            both.edit(|image| image.resize(length, 0));
            let answer = both.call(&call);
            assert!(is_refusal(answer, 1), "{name:?} on {length} bytes: {answer:?}");
        }
    }
}

#[test]
fn images_of_one_record_too_many_for_each_drive() {
    for drive in Drive::ALL {
        let mut image = vec![0; RECORD * (drive.blocks() as usize + 1)];
        assert_eq!(raw::check(&image, drive.number(), 1).number, 1);
        image.truncate(RECORD * drive.blocks() as usize);
        assert_eq!(raw::check(&image, drive.number(), 1).number, 2);
    }
}

#[test]
fn buffers_of_a_wrong_length() {
    let by_length = |name: &Name| refusals(*name).contains(&3) && !Name::DIRECTORIES.contains(name);
    for name in on_an_image().filter(by_length) {
        for length in [0, 1, 103, 105, 511, 513, 1_024, 512 * 59, 512 * 61] {
            let [(mut both, call), _] = calls_under(name, &[]);
            let answer = both.call(&call.with_buffer(&vec![1; length]));
            assert!(is_refusal(answer, 3), "{name:?} with {length} bytes: {answer:?}");
        }
    }
}

#[test]
fn partitions_that_are_not_good() {
    let image = roomy_image();
    let lda = |b| reference::lbn_to_lda(PLACE.drive, b).a;
    let cases = [
        ("start is another block", 118, lda(2)),
        ("start is nil", 118, 0),
        ("start is reserved bits alone", 118, 0x80),
        ("start is a PDA", 118, reference::lbn_to_pda(PLACE.drive, 1).a),
        ("end is the start", 120, lda(1)),
        ("end is before the start", 120, lda(0)),
        ("end is the record after the last", 120, lda(70)),
        ("end is nil", 120, 0),
        ("end is reserved bits alone", 120, 0xFF),
        ("end is a hard drive's", 120, reference::lbn_to_lda(0, 68).a),
    ];
    for (what, at, value) in cases {
        let mut both = Both::new(image.clone());
        both.edit(|image| set_pair(image, PLACE.s, DATA_WORD + at, value));
        for name in on_an_image() {
            let answer = both.call(&fine(name, &image));
            assert!(is_refusal(answer, 2), "{name:?} where {what}: {answer:?}");
        }
    }
    for s in [0, 2, 69, 70, 71, u32::MAX] {
        for name in on_an_image() {
            let answer = Both::new(image.clone()).call(&Call { s, ..fine(name, &image) });
            assert!(is_refusal(answer, 2), "{name:?} at {s}: {answer:?}");
        }
    }
}

#[test]
fn a_partition_that_starts_at_block_0_is_not_good() {
    let mut image = vec![0; RECORD * 8];
    set_pair(&mut image, 0, DATA_WORD + 118, reference::lbn_to_lda(0, 0).a);
    set_pair(&mut image, 0, DATA_WORD + 120, reference::lbn_to_lda(0, 7).a);
    assert_eq!(Both::new(image).call(&Call::new(Name::Check, 0, 0)).number, 2);
}

#[test]
fn repair_without_an_unowned_block() {
    for drive in 0..4 {
        let place = Place { drive, n: 3, s: 1, e: 2 };
        let mut image = reference::sample::fresh(drive, 3, 1, 2);
        set_pair(&mut image, 2, 0, place.pda(2));
        set_word(&mut image, 2, 2, 65_535);
        for (at, value) in [(249, 1), (250, 65_535), (253, 65_535)] {
            set_word(&mut image, 2, DATA_WORD + at, value);
        }
        for at in [251, 254] {
            set_pair(&mut image, 2, DATA_WORD + at, place.lda(2));
        }
        let mut both = Both::new(image);
        assert!(is_refusal(both.call(&Call::new(Name::Check, drive, 1)), 5));
        assert!(is_refusal(both.call(&Call::new(Name::Repair, drive, 1)), 9));
        both.edit(|image| set_word(image, 2, DATA_WORD + 249, 2));
        assert!(is_refusal(both.call(&Call::new(Name::Repair, drive, 1)), 4));
        both.edit(|image| set_pair(image, 1, DATA_WORD + 118, 0));
        assert!(is_refusal(both.call(&Call::new(Name::Repair, drive, 1)), 2));
    }
}
