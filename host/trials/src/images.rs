//! Images to make calls on: places of words in them, and sound partitions whose blocks lie in any order.

use crate::call::{Call, Name};
use crate::low_bits::LOW;
use reference::directory::{ADDRESS, ENTRY};
use reference::file::{DIRECT, FIB, KIND, LAST_ADDRESS, LAST_NEGATIVE_ADDRESS};
use reference::image::{
    DATA, FREE_HEAD, FREE_TAIL, HEADER, NEXT, PREVIOUS, RECORD, RELATIVE, SERIAL,
};
use reference::image::{PARTITION_END, PARTITION_START, ROOT_DIRECTORY};
use reference::index;
use reference::sample::{self, scattered, Rng};
use reference::{lbn_to_lda, lbn_to_pda, lda_to_lbn, pda_to_lbn, DONE};

/// A partition of an image: blocks s to e of n, on a drive.
#[derive(Clone, Copy, Debug, PartialEq, Eq)]
pub struct Place {
    pub drive: u32,
    pub n: u32,
    pub s: u32,
    pub e: u32,
}

/// The words of header and data counted through: data word k is word 8 + k.
pub const DATA_WORD: usize = HEADER / 2;

impl Place {
    /// A partition that fills the image from block 1 on.
    pub fn whole(drive: u32, n: u32) -> Place {
        Place { drive, n, s: 1, e: n - 1 }
    }

    /// A call on this partition; its further arguments are 0, its limit the largest.
    pub fn call(&self, name: Name) -> Call {
        Call::new(name, self.drive, self.s)
    }

    pub fn create(&self, kind: u16) -> Call {
        self.call(Name::Create).with_number(u32::from(kind))
    }

    /// A write of 512 times the same byte.
    pub fn write(&self, f: u32, r: u32, byte: u8) -> Call {
        self.call(Name::Write).with_file(f).with_block(r).with_buffer(&[byte; 512])
    }

    /// A describe with this name and zeros around it.
    pub fn describe(&self, f: u32, name: &str) -> Call {
        self.call(Name::Describe).with_file(f).with_buffer(&sample::named(name.as_bytes()))
    }

    pub fn destroy(&self, f: u32) -> Call {
        self.call(Name::Destroy).with_file(f)
    }

    /// The PDA of a block of this drive.
    pub fn pda(&self, b: u32) -> u32 {
        lbn_to_pda(self.drive, b).a
    }

    /// The LDA of a block of this drive.
    pub fn lda(&self, b: u32) -> u32 {
        lbn_to_lda(self.drive, b).a
    }

    /// A block that is not the partition's own first one.
    pub fn any_block(&self, rng: &mut Rng) -> u32 {
        self.s + 1 + rng.below(self.e - self.s)
    }
}

/// A word of block b, header words 0 to 7, then the data words.
pub fn word(image: &[u8], b: u32, at: usize) -> u16 {
    let from = RECORD * b as usize + 2 * at;
    u16::from_le_bytes([image[from], image[from + 1]])
}

pub fn set_word(image: &mut [u8], b: u32, at: usize, value: u16) {
    let from = RECORD * b as usize + 2 * at;
    image[from..from + 2].copy_from_slice(&value.to_le_bytes());
}

/// Two words of block b as one number.
pub fn pair(image: &[u8], b: u32, at: usize) -> u32 {
    u32::from(word(image, b, at)) + 65_536 * u32::from(word(image, b, at + 1))
}

pub fn set_pair(image: &mut [u8], b: u32, at: usize, value: u32) {
    set_word(image, b, at, value as u16);
    set_word(image, b, at + 1, (value >> 16) as u16);
}

pub fn record(image: &[u8], b: u32) -> &[u8] {
    &image[RECORD * b as usize..][..RECORD]
}

pub fn set_record(image: &mut [u8], b: u32, bytes: &[u8]) {
    image[RECORD * b as usize..][..RECORD].copy_from_slice(bytes);
}

/// The data words at which the LDAs of a partition's first block stand, two words each.
pub const PIB_ADDRESSES: [usize; 5] =
    [FREE_HEAD, FREE_TAIL, ROOT_DIRECTORY, PARTITION_START, PARTITION_END];

/// The same of a file's own block: its whole index, the last address and the last negative one.
pub fn fib_addresses() -> impl Iterator<Item = usize> {
    (DIRECT..KIND).step_by(2).chain([LAST_ADDRESS, LAST_NEGATIVE_ADDRESS])
}

/// The same of a pointer block.
pub fn pointer_addresses() -> impl Iterator<Item = usize> {
    (0..DATA / 2).step_by(2)
}

/// The same of a directory's block.
pub fn entry_addresses() -> impl Iterator<Item = usize> {
    (0..DATA / 2).step_by(ENTRY / 2).map(|entry| entry + ADDRESS / 2)
}

/// The block that an LDA names, whatever its reserved bits are; none for nil, and for what names no block.
pub fn named(place: &Place, lda: u32) -> Option<u32> {
    let answer = lda_to_lbn(place.drive, lda & !LOW);
    (answer.outcome == DONE).then_some(answer.a)
}

/// The block of the partition that two data words of block b name.
pub fn block_at(image: &[u8], place: &Place, b: u32, word: usize) -> Option<u32> {
    let block = named(place, pair(image, b, DATA_WORD + word))?;
    (place.s + 1..=place.e).contains(&block).then_some(block)
}

/// The block that a file's index names for a relative number.
pub fn indexed(image: &[u8], place: &Place, f: u32, relative: i32) -> Option<u32> {
    if relative == FIB {
        return Some(f);
    }
    let index::Place { holder, word } = index::place(relative);
    block_at(image, place, indexed(image, place, f, holder)?, word)
}

/// Whether block b says that it is a file's own block.
pub fn is_candidate(image: &[u8], place: &Place, b: u32) -> bool {
    pair(image, b, SERIAL) == place.pda(b) && word(image, b, RELATIVE) == FIB as u16
}

/// Whether block b says that it is a pointer block, -2 or -3 among them.
pub fn is_pointer(image: &[u8], b: u32) -> bool {
    (word(image, b, RELATIVE) as i16) < FIB as i16
}

/// A sound partition with files of these lengths, its blocks in a random order, and noise wherever no rule looks.
pub fn shuffled(place: &Place, lengths: &[u32], rng: &mut Rng) -> Vec<u8> {
    let orderly = scattered(place.drive, place.n, place.s, place.e, lengths, rng.number());
    let mut image = renamed(&orderly, place, &permutation(place, rng));
    add_noise(&mut image, place, rng);
    image
}

/// A random order of the blocks after s: block b goes to `order[b - s - 1]`.
pub fn permutation(place: &Place, rng: &mut Rng) -> Vec<u32> {
    let mut order: Vec<u32> = (place.s + 1..=place.e).collect();
    for i in (1..order.len()).rev() {
        order.swap(i, rng.below(i as u32 + 1) as usize);
    }
    order
}

/// The same partition with every block in another place, and every address that names it rewritten.
fn renamed(image: &[u8], place: &Place, order: &[u32]) -> Vec<u8> {
    let new = |b: u32| order[(b - place.s - 1) as usize];
    let new_pda = |pda: u32| match pda_to_lbn(place.drive, pda) {
        answer if answer.outcome == DONE => place.pda(new(answer.a)),
        _ => pda,
    };
    let new_lda = |lda: u32| match lda_to_lbn(place.drive, lda) {
        answer if answer.outcome == DONE => place.lda(new(answer.a)),
        _ => lda,
    };
    let mut result = image.to_vec();
    for b in place.s + 1..=place.e {
        let to = new(b);
        set_record(&mut result, to, record(image, b));
        for at in [SERIAL, NEXT, PREVIOUS] {
            set_pair(&mut result, to, at, new_pda(pair(image, b, at)));
        }
        for at in address_words(image, place, b) {
            set_pair(&mut result, to, DATA_WORD + at, new_lda(pair(image, b, DATA_WORD + at)));
        }
    }
    for at in [FREE_HEAD, FREE_TAIL] {
        set_pair(
            &mut result,
            place.s,
            DATA_WORD + at,
            new_lda(pair(image, place.s, DATA_WORD + at)),
        );
    }
    result
}

/// The data words of block b that hold addresses of blocks.
fn address_words(image: &[u8], place: &Place, b: u32) -> Vec<usize> {
    if is_candidate(image, place, b) {
        return fib_addresses().collect();
    }
    let is_one = pair(image, b, SERIAL) != 0 && is_pointer(image, b);
    pointer_addresses().filter(|_| is_one).collect()
}

/// Random bytes in all that a sound partition leaves open: the blocks outside it, its first block but for its own words,
/// fillers, and serial, relative number and data of free blocks, with serials of living files among them.
fn add_noise(image: &mut [u8], place: &Place, rng: &mut Rng) {
    let files: Vec<u32> =
        (place.s + 1..=place.e).filter(|&b| is_candidate(image, place, b)).collect();
    let free =
        reference::inspect::free_chain(image, place.drive, place.s).expect("a sound partition");
    for b in (0..place.s).chain(place.e + 1..place.n) {
        rng.fill(&mut image[RECORD * b as usize..][..RECORD]);
    }
    for at in
        (0..DATA_WORD).chain(DATA_WORD + 6..DATA_WORD + 118).chain(DATA_WORD + 122..RECORD / 2)
    {
        set_word(image, place.s, at, rng.number() as u16);
    }
    for b in place.s + 1..=place.e {
        set_word(image, b, 3, rng.number() as u16);
    }
    for b in free {
        rng.fill(&mut image[RECORD * b as usize + HEADER..][..RECORD - HEADER]);
        let serial = match files.len() as u32 {
            0 => 0,
            files_now => place.pda(files[rng.below(files_now) as usize]),
        };
        set_pair(image, b, SERIAL, if rng.below(2) == 0 { serial } else { place.pda(b) });
        set_word(image, b, RELATIVE, (rng.below(70) as i32 - 36) as u16);
        if is_candidate(image, place, b) {
            set_word(image, b, RELATIVE, 0);
        }
    }
}

/// The lengths of a few files that fit a partition, a free block left over.
pub fn some_lengths(place: &Place, most: u32, rng: &mut Rng) -> Vec<u32> {
    let mut room = place.e - place.s - 1;
    let mut lengths = Vec::new();
    for _ in 0..rng.below(most + 1) {
        let length = rng.below(room.min(220) + 1);
        let needs = 1 + length + length.saturating_sub(64).div_ceil(128);
        if needs <= room {
            room -= needs;
            lengths.push(length);
        }
    }
    lengths
}
