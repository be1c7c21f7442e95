//! Descriptions for tests of request 5: with a given name, and with random names, good and bad.

use crate::file::DESCRIPTION;
use crate::name::{CHARACTERS, LENGTH};
use crate::sample::Rng;

/// Characters that are good wherever they stand: the limits 32, 126, 128 and 255, the neighbours of
/// those that are not, and the dot.
const GOOD: &[u8] = b"aZ ~\x80\xFF.09;=?";

/// What is laid over good characters. Whether it makes a name bad depends on where it stands and on
/// what is beside it.
const PIECES: [&[u8]; 17] = [
    b">", b">", b">>", b">a>", b">.", b">..", b".>", b"..>", b">.>", b">..>", b">...>", b"<", b"/",
    b":", b"\x00", b"\x1F", b"\x7F",
];

/// A description of zeros but for this name, which has at most 81 characters.
pub fn named(text: &[u8]) -> [u8; DESCRIPTION] {
    let mut description = [0; DESCRIPTION];
    assert!(text.len() <= DESCRIPTION - CHARACTERS, "a name of at most 81 characters");
    description[LENGTH] = text.len() as u8;
    description[CHARACTERS..][..text.len()].copy_from_slice(text);
    description
}

/// A random description. About half have good names; the others break every rule, first, last and
/// elsewhere. What would be bad is also laid behind the length or half behind it.
pub fn random_name(rng: &mut Rng) -> [u8; DESCRIPTION] {
    let mut description = [0; DESCRIPTION];
    rng.fill(&mut description);
    let length = random_length(rng);
    description[LENGTH] = length;
    let characters = &mut description[CHARACTERS..];
    let inside = usize::from(length).min(characters.len());
    characters[..inside].fill_with(|| *pick(rng, GOOD));
    for _ in 0..rng.below(3) {
        lay_piece(rng, characters, inside);
    }
    description
}

/// Mostly 1 to 80, with the limits on either side.
fn random_length(rng: &mut Rng) -> u8 {
    match rng.below(12) {
        0 => *pick(rng, &[0, 81, 82, 255]),
        1..=4 => *pick(rng, &[1, 2, 79, 80]),
        5..=8 => 1 + rng.below(9) as u8,
        _ => 1 + rng.below(80) as u8,
    }
}

/// Lays one piece at the start, at the end, over the end or anywhere in a name of this length.
fn lay_piece(rng: &mut Rng, characters: &mut [u8], length: usize) {
    let piece = *pick(rng, &PIECES);
    let over = rng.below(piece.len() as u32 + 1) as usize;
    let at = match rng.below(4) {
        0 => 0,
        1 => length.saturating_sub(piece.len()),
        2 => length.saturating_sub(over),
        _ => rng.below(length as u32 + 1) as usize,
    };
    for (character, &laid) in characters[at..].iter_mut().zip(piece) {
        *character = laid;
    }
}

fn pick<'a, T>(rng: &mut Rng, among: &'a [T]) -> &'a T {
    &among[rng.below(among.len() as u32) as usize]
}
