//! Damage to an image: a field that a rule reads gets another value, likely ones among them, or records change places.

use crate::images::{
    entry_addresses, fib_addresses, is_candidate, is_pointer, pair, pointer_addresses, record,
    set_pair, set_record, set_word, word, Place, DATA_WORD, PIB_ADDRESSES,
};
use crate::low_bits::LOW;
use reference::directory::SORT;
use reference::image::{NEXT, NUMBER_FREE, PREVIOUS, RECORD, RELATIVE, SERIAL};
use reference::sample::Rng;
use reference::{lda_to_lbn, pda_to_lbn, DONE};

/// A field of a record: its first word (header words, then data words) and whether it is an address of two words.
#[derive(Clone, Copy, Debug, PartialEq, Eq)]
pub struct Field {
    pub at: usize,
    pub is_pair: bool,
}

fn one(at: usize) -> Field {
    Field { at, is_pair: false }
}

fn two(at: usize) -> Field {
    Field { at, is_pair: true }
}

/// The header: serial, relative number, filler, next, previous.
pub fn header_fields() -> Vec<Field> {
    vec![two(SERIAL), one(RELATIVE), one(3), two(NEXT), two(PREVIOUS)]
}

/// A file's own block: three words of its description (the middle one tells directories), every entry of its index, and
/// all that follows.
pub fn fib_fields() -> Vec<Field> {
    let addresses = fib_addresses().map(|at| two(DATA_WORD + at));
    let numbers = [0, SORT, 51, 248, 249, 250, 253].map(|at| one(DATA_WORD + at));
    addresses.chain(numbers).collect()
}

/// The partition's first block: head and tail of the free chain, its number, the root directory, start and end, and a
/// word of no meaning.
pub fn pib_fields() -> Vec<Field> {
    let pairs = PIB_ADDRESSES.into_iter().chain([NUMBER_FREE]);
    let mut fields: Vec<Field> = pairs.map(|at| two(DATA_WORD + at)).collect();
    fields.push(one(DATA_WORD + 200));
    fields
}

/// The 16 entries of a directory block: the word that says whether it is valid, the address, the length with the first letter.
pub fn entry_fields() -> Vec<Field> {
    let addresses = entry_addresses().map(|at| DATA_WORD + at);
    addresses.flat_map(|at| [one(at - 1), two(at), one(at + 2)]).collect()
}

/// The 128 entries of a pointer block, -2 and -3 among them.
pub fn pointer_fields() -> Vec<Field> {
    pointer_addresses().map(|at| two(DATA_WORD + at)).collect()
}

/// Values worth trying in an address field of block b that now holds `old`; reserved bits alone are among them, and those
/// of `old` and of other addresses set or turned.
pub fn likely_pairs(place: &Place, b: u32, old: u32) -> Vec<u32> {
    let mut values = vec![0, 1, LOW, u32::MAX];
    values.extend([1, 0x80, LOW, 0x100, 0x1_0000, 0x8000_0000].map(|bits| old ^ bits));
    values.extend([old.wrapping_add(1), old.wrapping_sub(1), old.wrapping_add(256)]);
    values.extend([old.rotate_left(16), old & 0xFFFF, old >> 16]);
    let near =
        [place.s, place.s + 1, b, b + 1, b.saturating_sub(1), place.e, place.e + 1, place.n - 1];
    for block in near.iter().copied().filter(|&block| block < place.n) {
        values.extend([place.pda(block), place.lda(block), place.lda(block) | 0x5A]);
    }
    values.push(other_kind(place, old));
    values
}

/// The PDA of the block that an LDA names, or the LDA of the one that a PDA names; otherwise the value itself.
fn other_kind(place: &Place, value: u32) -> u32 {
    let (from_lda, from_pda) = (lda_to_lbn(place.drive, value), pda_to_lbn(place.drive, value));
    if from_lda.outcome == DONE {
        place.pda(from_lda.a)
    } else if from_pda.outcome == DONE {
        place.lda(from_pda.a)
    } else {
        value
    }
}

/// Values worth trying in a field of one word that now holds `old`.
pub fn likely_words(old: u16) -> Vec<u16> {
    let mut values = vec![0, 1, 3, 63, 64, 65, 191, 192, 4_158, 4_159, 4_160, 20_543, 20_544];
    values.extend([32_765, 32_766, 0x7FFF, 0x8000]);
    values.extend([-1_i16, -2, -3, -4, -5, -35, -36, -163, -164].map(|number| number as u16));
    values.extend([old.wrapping_add(1), old.wrapping_sub(1), old.wrapping_neg(), old ^ 0x8000]);
    values
}

/// The likely values of a field of block b, but for the one that it has.
pub fn values(image: &[u8], place: &Place, b: u32, field: Field) -> Vec<u32> {
    let old = get(image, b, field);
    let mut values = match field.is_pair {
        true => likely_pairs(place, b, old),
        false => likely_words(old as u16).into_iter().map(u32::from).collect(),
    };
    values.sort_unstable();
    values.dedup();
    values.retain(|&value| value != old);
    values
}

/// What a field of block b holds.
pub fn get(image: &[u8], b: u32, field: Field) -> u32 {
    match field.is_pair {
        true => pair(image, b, field.at),
        false => u32::from(word(image, b, field.at)),
    }
}

/// Puts a value into a field of block b.
pub fn set(image: &mut [u8], b: u32, field: Field, value: u32) {
    match field.is_pair {
        true => set_pair(image, b, field.at, value),
        false => set_word(image, b, field.at, value as u16),
    }
}

fn choose<T: Copy>(from: &[T], rng: &mut Rng) -> T {
    from[rng.below(from.len() as u32) as usize]
}

/// Sets a random field out of `fields` in block b to a likely value, to one of another block's, or to a random one; or turns
/// reserved bits of an address, or of nil.
fn set_some_field(image: &mut [u8], place: &Place, b: u32, fields: &[Field], rng: &mut Rng) {
    let field = choose(fields, rng);
    let elsewhere = place.any_block(rng);
    let value = match rng.below(8) {
        0 | 1 => rng.number() as u32,
        2 => get(image, elsewhere, field),
        3 if field.is_pair => place.pda(elsewhere),
        4 if field.is_pair => place.lda(elsewhere) | rng.below(2) * rng.below(LOW + 1),
        5 if field.is_pair => get(image, b, field) ^ (1 + rng.below(LOW)),
        _ => choose(&values(image, place, b, field), rng),
    };
    set(image, b, field, value);
}

/// A block that is like this, if there is one; otherwise any.
fn block_like(place: &Place, rng: &mut Rng, is_like: impl Fn(u32) -> bool) -> u32 {
    let found: Vec<u32> = (place.s + 1..=place.e).filter(|&b| is_like(b)).collect();
    match found.is_empty() {
        true => place.any_block(rng),
        false => choose(&found, rng),
    }
}

/// A pointer block; in a partition that can hold a big file it is -2 or -3 as often as another one.
fn some_pointer(image: &[u8], place: &Place, rng: &mut Rng) -> u32 {
    let is_double = |b: u32| (-3..=-2).contains(&(word(image, b, RELATIVE) as i16));
    let double = place.e - place.s > 4_160 && rng.below(2) == 0;
    block_like(place, rng, |b| if double { is_double(b) } else { is_pointer(image, b) })
}

/// The header of a pointer block, or entries: all, or the first ones, which are used.
fn some_pointer_fields(rng: &mut Rng) -> Vec<Field> {
    match rng.below(4) {
        0 => header_fields(),
        1 => pointer_fields()[..4].to_vec(),
        _ => pointer_fields(),
    }
}

/// Copies a record over another one, or has the two change places.
fn misplace(image: &mut [u8], place: &Place, rng: &mut Rng) {
    let (one, other) = (place.any_block(rng), place.any_block(rng));
    let (first, second) = (record(image, one).to_vec(), record(image, other).to_vec());
    set_record(image, other, &first);
    if rng.below(2) == 0 {
        set_record(image, one, &second);
    }
}

/// One random damage.
pub fn damage(image: &mut [u8], place: &Place, rng: &mut Rng) {
    match rng.below(10) {
        0 | 1 => set_some_field(image, place, place.any_block(rng), &header_fields(), rng),
        2 | 3 => {
            let b = block_like(place, rng, |b| is_candidate(image, place, b));
            set_some_field(image, place, b, &fib_fields(), rng);
        }
        4 => set_some_field(image, place, place.s, &pib_fields(), rng),
        5 | 6 => {
            let b = some_pointer(image, place, rng);
            set_some_field(image, place, b, &some_pointer_fields(rng), rng);
        }
        7 => {
            let b = block_like(place, rng, |b| (word(image, b, RELATIVE) as i16) >= 0);
            set_some_field(image, place, b, &entry_fields(), rng);
        }
        8 => misplace(image, place, rng),
        _ => {
            let at = RECORD * place.any_block(rng) as usize + rng.below(RECORD as u32) as usize;
            image[at] ^= 1 << rng.below(8);
        }
    }
}
