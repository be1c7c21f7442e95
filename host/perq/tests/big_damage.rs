//! Damaged double indexes. What makes a file malformed is refused by 4, whatever the call; an entry left over in -2 or -3 is
//! refused by 5, and repair makes it nil. Every call is made on the reference too.

use reference::file::{BLOCKS_IN_USE, DOUBLE, LAST_BLOCK, LAST_NEGATIVE, LAST_NEGATIVE_ADDRESS};
use reference::image::{RELATIVE, SERIAL};
use reference::index::{entry_word, FIB};
use reference::{Answer, DONE};
use trials::big::{self, FILE, OTHER};
use trials::both::Both;
use trials::call::{Call, Name};
use trials::damage::{self, Field};
use trials::images::{indexed, pair, set_pair, set_word, word, Place, DATA_WORD};
use trials::sweep;
use trials::tally::is_refusal;

/// A partition with a big file, one of three blocks beside it, and five free blocks.
struct Sample {
    place: Place,
    both: Both,
    length: u32,
}

/// L = 4,299: pointer blocks -4 to -37, of which -2 names the last two.
fn with_minus_2() -> Sample {
    Sample::new(0, 4_300)
}

/// L = 20,599: pointer blocks -4 to -164, of which -2 names 128 and -3 the last one.
fn with_minus_3() -> Sample {
    Sample::new(1, 20_600)
}

impl Sample {
    fn new(drive: u32, length: u32) -> Sample {
        let place = big::place(drive, length, 5);
        Sample { place, both: Both::new(big::image(&place, length)), length }
    }

    /// The block of the big file with this relative number.
    fn block(&self, relative: i32) -> u32 {
        indexed(self.both.image(), &self.place, FILE, relative).expect("a block of the file")
    }

    fn lda(&self, relative: i32) -> u32 {
        self.place.lda(self.block(relative))
    }

    /// Puts an address into two words of block b, looks, and takes it back.
    fn with_pair(&mut self, b: u32, at: usize, value: u32, look: impl FnOnce(&mut Both, &Place)) {
        let old = pair(self.both.image(), b, at);
        assert_ne!(value, old, "another value at word {at} of block {b}");
        self.both.edit(|image| set_pair(image, b, at, value));
        look(&mut self.both, &self.place);
        self.both.edit(|image| set_pair(image, b, at, old));
    }

    /// The same with one word.
    fn with_word(&mut self, b: u32, at: usize, value: u16, look: impl FnOnce(&mut Both, &Place)) {
        let old = word(self.both.image(), b, at);
        assert_ne!(value, old, "another value at word {at} of block {b}");
        self.both.edit(|image| set_word(image, b, at, value));
        look(&mut self.both, &self.place);
        self.both.edit(|image| set_word(image, b, at, old));
    }

    /// Addresses that are right nowhere in an index: nil, reserved bits alone, a mark that is not there, blocks outside of the
    /// partition and of the drive, a free block, and blocks of the other file.
    fn wrong_addresses(&self) -> Vec<u32> {
        let Place { s, e, n, .. } = self.place;
        let other = indexed(self.both.image(), &self.place, OTHER, 0).expect("its first block");
        let blocks = [0, s, n, 500_000, e, OTHER, other];
        let addresses = blocks.into_iter().map(|b| 0xC000_0000 | b << 8);
        addresses.chain([0, 1, 0xFF, self.place.lda(other) & !0xC000_0000]).collect()
    }

    /// Puts every wrong address, and those of these blocks of the file itself, into one entry of the index.
    fn wrong_entries(&mut self, holder: i32, data_word: usize, own: &[i32]) {
        let b = self.block(holder);
        let own: Vec<u32> = own.iter().map(|&relative| self.lda(relative)).collect();
        for wrong in [self.wrong_addresses(), own].concat() {
            self.with_pair(b, DATA_WORD + data_word, wrong, must_be_malformed);
        }
    }

    /// Puts wrong numbers and serials into the header of a block.
    fn wrong_headers(&mut self, relative: i32) {
        let b = self.block(relative);
        for wrong in [-1, -2, -3, -4, -35, -36, 0, 4_160].into_iter().filter(|&n| n != relative) {
            self.with_word(b, RELATIVE, wrong as u16, must_be_malformed);
        }
        for wrong in [0, self.place.pda(OTHER), self.place.pda(b), self.place.pda(FILE) ^ 1 << 31] {
            self.with_pair(b, SERIAL, wrong, must_be_malformed);
        }
    }
}

/// All calls that look at the big file refuse it by 4; the other file can be read.
fn must_be_malformed(both: &mut Both, place: &Place) {
    let on = |name, f| place.call(name).with_file(f);
    let calls = [
        place.call(Name::Check),
        on(Name::Read, FILE).with_buffer(&[1; 512]),
        on(Name::Show, FILE).with_block(32_767),
        on(Name::Description, FILE).with_buffer(&[1; 104]),
        on(Name::Extract, FILE),
        place.create(1),
        place.write(OTHER, 3, 1),
        place.describe(OTHER, "letter"),
        place.destroy(FILE),
        place.call(Name::Repair),
    ];
    for call in calls {
        let answer = both.call(&call);
        assert!(is_refusal(answer, 4) && answer.block == FILE, "{:?}: {answer:?}", call.name);
    }
    assert_eq!(both.call(&place.call(Name::NextFile)).a, OTHER);
    assert_eq!(both.call(&on(Name::Show, OTHER)).outcome, DONE);
}

#[test]
fn wrong_entries_on_the_way_through_minus_2() {
    let mut sample = with_minus_2();
    sample.wrong_entries(FIB, DOUBLE, &[-1, -4, -35, -36, 0, 4_160]);
    sample.wrong_entries(-2, entry_word(0), &[-2, -4, -35, -37, 0, 4_160]);
    sample.wrong_entries(-2, entry_word(1), &[-1, -36, 4_288]);
    sample.wrong_entries(-37, entry_word(0), &[-2, -37, 4_287, 4_289]);
    assert_eq!(sample.both.call(&sample.place.call(Name::Check)).outcome, DONE);
}

#[test]
fn wrong_entries_on_the_way_through_minus_3() {
    let mut sample = with_minus_3();
    sample.wrong_entries(FIB, DOUBLE, &[-3]);
    sample.wrong_entries(FIB, DOUBLE + 2, &[-1, -2, -4, -164]);
    sample.wrong_entries(-2, entry_word(60), &[-95, -97]);
    sample.wrong_entries(-2, entry_word(127), &[-164]);
    sample.wrong_entries(-3, entry_word(0), &[-2, -163, 20_544]);
    assert_eq!(sample.both.call(&sample.place.call(Name::Check)).outcome, DONE);
}

#[test]
fn wrong_headers_of_the_double_index() {
    let mut sample = with_minus_2();
    [-2, -4, -36, -37, 4_160].into_iter().for_each(|relative| sample.wrong_headers(relative));
    let mut sample = with_minus_3();
    [-2, -3, -164].into_iter().for_each(|relative| sample.wrong_headers(relative));
}

#[test]
fn wrong_words_of_the_file_s_own_block() {
    let mut sample = with_minus_2();
    // 4,300 blocks of data, 34 pointer blocks, -2 and its own: without -2, without both, and one more.
    let words = [
        (BLOCKS_IN_USE, &[4_335, 4_301, 4_337][..]),
        (LAST_BLOCK, &[-1, 4_159, 4_298, 4_300, 20_544, 32_766, 32_767]),
        (LAST_NEGATIVE, &[-1, -2, -4, -35, -36, -38]),
    ];
    for (at, values) in words {
        for &value in values {
            sample.with_word(FILE, DATA_WORD + at, value as u16, must_be_malformed);
        }
    }
    for relative in [-1, -2, -36] {
        let lda = sample.lda(relative);
        sample.with_pair(FILE, DATA_WORD + LAST_NEGATIVE_ADDRESS, lda, must_be_malformed);
    }
}

/// Any bit in a double entry that 0..L does not need.
#[test]
fn a_double_entry_that_the_file_does_not_need() {
    for (length, entries) in [(0, 0..2), (64, 0..2), (4_160, 0..2), (4_161, 1..2), (20_544, 1..2)] {
        let mut sample = Sample::new(2, length);
        for at in entries.map(|entry| DATA_WORD + DOUBLE + 2 * entry) {
            for wrong in [1, 0xFF, 1 << 31, sample.lda(-1), sample.place.lda(sample.place.e)] {
                sample.with_pair(FILE, at, wrong, must_be_malformed);
            }
        }
    }
}

/// An entry that is not used but set: check and the changing calls are refused by 5, reading goes on, and repair makes it nil.
fn left_over(sample: &mut Sample, holder: i32, entry: u32) {
    let (b, at) = (sample.block(holder), DATA_WORD + entry_word(entry));
    let length = sample.length;
    for wrong in [1, 0xFF, 1 << 31, sample.lda(-2), sample.lda(0), sample.place.lda(OTHER)] {
        let whole = sample.both.image().to_vec();
        sample.with_pair(b, at, wrong, |both, place| {
            for call in [place.call(Name::Check), place.write(FILE, length, 1), place.destroy(FILE)]
            {
                assert!(is_refusal(both.call(&call), 5), "{wrong:x} left in {entry} of {holder}");
            }
            let last = place.call(Name::Show).with_file(FILE).with_block(length - 1);
            assert_eq!(both.call(&last).outcome, DONE);
            let mut mended = both.clone();
            assert_eq!(mended.call(&place.call(Name::Repair)).outcome, DONE);
            assert!(mended.image() == whole, "repair of entry {entry} of {holder}");
        });
    }
}

#[test]
fn left_over_entries() {
    for (mut sample, entries) in [
        (with_minus_2(), &[(-2, 2), (-2, 127), (-37, 12), (-37, 127)][..]),
        (with_minus_3(), &[(-3, 1), (-3, 127), (-164, 56)]),
    ] {
        sample.both.call(&sample.place.call(Name::Repair));
        entries.iter().for_each(|&(holder, entry)| left_over(&mut sample, holder, entry));
    }
}

/// The header, and some entries.
fn some_fields(entries: &[u32]) -> Vec<Field> {
    let all = damage::pointer_fields();
    let entries = entries.iter().map(|&entry| all[entry as usize]);
    damage::header_fields().into_iter().chain(entries).collect()
}

/// Every likely value in each of these fields, looked at by check and next_file, and by the calls on the file where it is one.
fn try_fields(sample: &mut Sample, relative: i32, fields: &[Field]) -> Vec<Answer> {
    let (b, place, mut answers) = (sample.block(relative), sample.place, Vec::new());
    for &field in fields {
        let old = damage::get(sample.both.image(), b, field);
        for value in damage::values(sample.both.image(), &place, b, field) {
            sample.both.edit(|image| damage::set(image, b, field, value));
            answers.push(sample.both.call(&place.call(Name::Check)));
            sweep::partition(&mut sample.both, &place, &[]);
            sample.both.call(&Call { r: sample.length - 1, f: FILE, ..place.call(Name::Show) });
        }
        sample.both.edit(|image| damage::set(image, b, field, old));
    }
    answers
}

#[test]
fn every_likely_value_in_the_fields_of_a_double_index() {
    let mut sample = with_minus_2();
    let of_the_fib = damage::fib_fields().into_iter().filter(|field| field.at >= DATA_WORD + 240);
    let mut answers = try_fields(&mut sample, FIB, &of_the_fib.collect::<Vec<Field>>());
    answers.extend(try_fields(&mut sample, -2, &some_fields(&[0, 1, 2, 127])));
    answers.extend(try_fields(&mut sample, -36, &some_fields(&[0, 127])));
    answers.extend(try_fields(&mut sample, -4, &some_fields(&[])));
    let mut sample = with_minus_3();
    answers.extend(try_fields(&mut sample, -3, &some_fields(&[0, 1])));
    for number in [0, 4, 5] {
        assert!(answers.iter().any(|answer| answer.number == number), "no {number}");
    }
}
