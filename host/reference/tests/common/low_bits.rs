//! Where LDAs stand in a partition, by document 01 and request 4, and bits 0-7 laid into them.

use super::{pair, set_pair};

/// The block and word (0-7 header, then data) of a pair of words.
pub type Place = (u32, usize);

/// FreeHead, FreeTail, PartitionStart and PartitionEnd.
pub fn ldas_of_pib(s: u32) -> Vec<Place> {
    [0, 2, 118, 120].map(|data| (s, 8 + data)).to_vec()
}

/// The block that the LDA in this place names.
fn named(image: &[u8], place: Place) -> u32 {
    pair(image, place.0, place.1) >> 8 & 0x7_FFFF
}

/// The LDA of pointer block -(4+j): in the FIB, or in -2 or -3, whose own LDA is the second answer.
fn lda_of_pointer(image: &[u8], f: u32, j: usize) -> (Place, Option<Place>) {
    if j < 32 {
        return ((f, 8 + 180 + 2 * j), None);
    }
    let double = (f, 8 + 244 + 2 * ((j - 32) / 128));
    ((named(image, double), 8 + 2 * ((j - 32) % 128)), Some(double))
}

/// Every LDA of a file with so many data blocks: in its FIB, and the used entries of its pointer blocks.
pub fn ldas_of_file(image: &[u8], f: u32, length: u32) -> Vec<Place> {
    let mut places = vec![(f, 8 + 251), (f, 8 + 254)];
    places.extend((0..length.min(64)).map(|r| (f, 8 + 52 + 2 * r as usize)));
    for r in 64..length as usize {
        let (pointer, double) = lda_of_pointer(image, f, (r - 64) / 128);
        let entry = (r - 64) % 128;
        if entry == 0 {
            places.push(pointer);
        }
        if r == 4_160 || r == 20_544 {
            places.extend(double);
        }
        places.push((named(image, pointer), 8 + 2 * entry));
    }
    places
}

/// The low byte of each of these pairs becomes one that is not zero; all 255 come in turn.
pub fn lay_low_bits(image: &mut [u8], places: &[Place]) {
    for (i, &(b, at)) in (0..).zip(places) {
        let bits = 1 + 37 * i % 255;
        let clean = pair(image, b, at) & 0xFFFF_FF00;
        set_pair(image, b, at, clean + bits);
    }
}
