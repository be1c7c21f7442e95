//! The names that describe takes and refuses. At every boundary the answers are written out by hand; on all short names over a
//! few letters, on every byte at the ends of a name and on random names library and reference are held to each other.

use reference::image::{HEADER, RECORD};
use reference::sample::{named, random_name, scattered};
use reference::{DONE, REFUSED};
use trials::both::Both;
use trials::call::{Call, Name};
use trials::cuts::every_limit;
use trials::images::Place;
use trials::settings::{cases, rng};
use trials::tally::{Tally, BROKEN};

const PLACE: Place = Place { drive: 3, n: 12, s: 1, e: 10 };
const FILE: u32 = 2;
/// The byte of the length; the first character is the next one.
const LENGTH: usize = 22;

/// File 2 of three blocks, file 3 of none.
fn image() -> Vec<u8> {
    scattered(PLACE.drive, PLACE.n, PLACE.s, PLACE.e, &[3, 0], 5)
}

fn describe(description: &[u8]) -> Call {
    PLACE.call(Name::Describe).with_file(FILE).with_buffer(description)
}

/// What name says on both sides: the rule that is broken and where, or 0 and 0.
fn judged(both: &mut Both, description: &[u8]) -> (u32, u32) {
    let answer = both.call(&Call::name_of(description));
    let others = [answer.outcome, answer.number, answer.block, answer.made, answer.c];
    assert_eq!(others, [DONE, 0, 0, 0, 0], "{answer:?}");
    (answer.a, answer.b)
}

/// Describes under every limit: done if the name is good, and then nothing but the description has changed; refused by 12 if
/// it is bad, and then nothing has.
fn must_describe(description: &[u8], is_good: bool) {
    let mut expected = image();
    let mut both = Both::new(expected.clone());
    let answer = every_limit(&mut both, &describe(description));
    let told = description.escape_ascii();
    if is_good {
        assert_eq!((answer.outcome, answer.number, answer.made), (DONE, 0, 1), "{told}");
        let at = RECORD * FILE as usize + HEADER;
        expected[at..at + description.len()].copy_from_slice(description);
    } else {
        assert_eq!((answer.outcome, answer.number, answer.made), (REFUSED, 12, 0), "{told}");
    }
    assert!(both.image() == expected, "{told}");
}

/// The description's name breaks this rule at this place, or none for 0 and 0.
fn must_be(description: &[u8], rule: u32, place: u32) {
    let found = judged(&mut Both::new(Vec::new()), description);
    assert_eq!(found, (rule, place), "{}", description.escape_ascii());
    must_describe(description, rule == 0);
}

/// A description whose length byte is this, with the characters from the first on.
fn of_length(length: u8, characters: &[u8]) -> [u8; 104] {
    let mut description = named(characters);
    description[LENGTH] = length;
    description
}

#[test]
fn lengths() {
    for length in 1..=80 {
        must_be(&named(&[b'x'; 80][..length]), 0, 0);
    }
    must_be(&named(b""), 1, 0);
    must_be(&named(&[b'x'; 81]), 1, 0);
    for length in [0, 81, 82, 127, 128, 165, 255] {
        // No character is looked at.
        must_be(&of_length(length, &[b'x'; 81]), 1, 0);
        must_be(&of_length(length, b"<\x00>.>"), 1, 0);
        must_be(&[length; 104], 1, 0);
    }
}

/// Names with the rule that they break and the place; 0 and 0 for those that are good.
const CHARACTERS: [(&[u8], u32, u32); 37] = [
    (b"\x00", 2, 1),
    (b"\x1f", 2, 1),
    (b" ", 0, 0),
    (b"  a  ", 0, 0),
    (b"~", 0, 0),
    (b"\x7f", 2, 1),
    (b"\x80", 0, 0),
    (b"\x9f\xa0\xff", 0, 0),
    (b"a\x1fb", 2, 2),
    (b"a\x7fb", 2, 2),
    (b"a\x80b", 0, 0),
    (b"ab\x1f", 2, 3),
    (b"ab ", 0, 0),
    (b"ab~", 0, 0),
    (b"ab\x7f", 2, 3),
    (b"ab\x80", 0, 0),
    (b"a\x00", 2, 2),
    (b"<", 3, 1),
    (b"/", 3, 1),
    (b":", 3, 1),
    (b"<ab", 3, 1),
    (b"/ab", 3, 1),
    (b":ab", 3, 1),
    (b"a<b", 3, 2),
    (b"a/b", 3, 2),
    (b"a:b", 3, 2),
    (b"ab<", 3, 3),
    (b"ab/", 3, 3),
    (b"ab:", 3, 3),
    (b".09;=?@", 0, 0),
    (b"\\|*'\"&$#!", 0, 0),
    // The first character at which a rule is broken counts.
    (b"a:b/c", 3, 2),
    (b"/\x1f", 3, 1),
    (b"\x1f/", 2, 1),
    (b"a\x7f>", 2, 2),
    (b"a>/", 3, 3),
    (b"/>", 3, 1),
];

const JOINTS: [(&[u8], u32, u32); 42] = [
    (b">", 4, 1),
    (b"a>", 4, 2),
    (b">>", 4, 2),
    (b"a>b>", 4, 4),
    (b"a>>", 4, 3),
    (b"..>", 4, 3),
    (b".>", 4, 2),
    (b">a", 0, 0),
    (b">>a", 0, 0),
    (b"a>>b", 0, 0),
    (b"letters>first.text", 0, 0),
    (b"abcdefghijklmnopqrstuvwxyz>a", 0, 0),
    // The first part and the last may be dots.
    (b".", 0, 0),
    (b"..", 0, 0),
    (b".>a", 0, 0),
    (b"..>a", 0, 0),
    (b">.", 0, 0),
    (b">..", 0, 0),
    (b"a>.", 0, 0),
    (b"a>..", 0, 0),
    (b".>..", 0, 0),
    // Others are not, unless there are more than two or something else is with them.
    (b">.>a", 5, 1),
    (b">..>a", 5, 1),
    (b"a>.>b", 5, 2),
    (b"a>..>b", 5, 2),
    (b"a>b>..>c", 5, 4),
    (b"a>...>b", 0, 0),
    (b">...>a", 0, 0),
    (b"a>.b>c", 0, 0),
    (b"a>b.>c", 0, 0),
    (b"a>..b>c", 0, 0),
    (b"a> .>b", 0, 0),
    (b">>.>a", 5, 2),
    (b">>..>a", 5, 2),
    (b".>.>a", 5, 2),
    (b"..>..>a", 5, 3),
    // The place is that of the first ">", also where the last one is final.
    (b">.>", 5, 1),
    (b">..>", 5, 1),
    (b"a>.>", 5, 2),
    (b">.>.>", 5, 1),
    (b">.>/", 5, 1),
    (b">./>", 3, 3),
];

#[test]
fn characters() {
    CHARACTERS.into_iter().for_each(|(name, rule, place)| must_be(&named(name), rule, place));
}

#[test]
fn joints_and_dots() {
    JOINTS.into_iter().for_each(|(name, rule, place)| must_be(&named(name), rule, place));
}

#[test]
fn the_same_in_the_last_places_of_the_longest_name() {
    let longest = |end: &[u8]| named(&[&vec![b'x'; 80 - end.len()], end].concat());
    for end in [&b"\x1f"[..], b"\x7f"] {
        must_be(&longest(end), 2, 80);
    }
    for end in [&b"<"[..], b"/", b":"] {
        must_be(&longest(end), 3, 80);
    }
    for end in [&b" "[..], b"~", b"\x80", b"\xff", b">.", b">..", b">...", b">>."] {
        must_be(&longest(end), 0, 0);
    }
    must_be(&longest(b">"), 4, 80);
    must_be(&longest(b">.>"), 5, 78);
    must_be(&longest(b">..>"), 5, 77);
    must_be(&longest(b">.>a"), 5, 77);
}

/// What stands past the length is no part of the name.
#[test]
fn past_the_length() {
    let behind: [&[u8]; 10] =
        [b"<", b"/", b":", b"\x00", b"\x1f", b"\x7f", b">", b".>", b"..>", b">.>"];
    for behind in behind {
        for name in [&b"a"[..], b">.", b">..", b"a>..", b".", b"..", b">a"] {
            must_be(&of_length(name.len() as u8, &[name, behind].concat()), 0, 0);
        }
        must_be(&of_length(2, &[b"a>", behind].concat()), 4, 2);
        must_be(&of_length(1, &[b">", behind].concat()), 4, 1);
    }
    for last in [b'<', b'\x1f', b'>'] {
        let mut characters = [b'x'; 81];
        characters[80] = last;
        must_be(&of_length(80, &characters), 0, 0);
    }
}

/// What a byte is by itself in a name of such a length, the others being letters.
fn by_itself(byte: u8, place: u32, length: u32) -> (u32, u32) {
    match byte {
        0..=31 | 127 => (2, place),
        b'<' | b'/' | b':' => (3, place),
        b'>' if place == length => (4, place),
        _ => (0, 0),
    }
}

#[test]
fn every_byte_first_second_and_last() {
    for (length, place) in [(1, 1), (2, 1), (2, 2), (80, 1), (80, 2), (80, 80)] {
        for byte in 0..=255 {
            let mut name = [b'a'; 80];
            name[place as usize - 1] = byte;
            let (rule, at) = by_itself(byte, place, length);
            must_be(&named(&name[..length as usize]), rule, at);
        }
    }
}

/// All names of up to five characters over four of them: which are bad is told by looking for the pieces.
#[test]
fn all_short_names() {
    let mut both = Both::new(Vec::new());
    let (mut count, mut names) = (0, vec![String::new()]);
    for _ in 1..=5 {
        names = names
            .iter()
            .flat_map(|name| ['>', '.', 'a', '/'].map(|c| format!("{name}{c}")))
            .collect();
        for name in &names {
            let (rule, place) = judged(&mut both, &named(name.as_bytes()));
            let pieces = ["/", ">.>", ">..>"].map(|piece| name.find(piece));
            let last = name.ends_with('>').then_some(name.len() - 1);
            let first = pieces.into_iter().chain([last]).flatten().min();
            assert_eq!(first.map_or(0, |at| at as u32 + 1), place, "{name}");
            assert_eq!(first.is_none(), rule == 0, "{name}");
            count += 1;
        }
    }
    assert_eq!(count, 4 + 16 + 64 + 256 + 1_024);
}

#[test]
fn random_names() {
    let (mut rng, mut tally) = (rng(100), Tally::default());
    let mut both = Both::new(image());
    for _ in 0..cases(40_000) {
        let description = random_name(&mut rng);
        let (name, describe) = (Call::name_of(&description), describe(&description));
        let before = both.image().to_vec();
        let (said, done) = (both.call(&name), both.call(&describe));
        assert_eq!(said.a == 0, done.outcome == DONE, "{}", description.escape_ascii());
        assert!(done.outcome == DONE || (done.number == 12 && both.image() == before), "{done:?}");
        tally.add(&name, said);
        tally.add(&describe, done);
    }
    let met = |outcome| tally.times(Name::Name, outcome) > 100;
    assert!((0..=5).all(|rule| met(if rule == 0 { 0 } else { BROKEN + rule })));
    assert!(tally.times(Name::Describe, 0) > 100 && tally.times(Name::Describe, 12) > 100);
}

#[test]
fn buffers_of_a_wrong_length() {
    let mut both = Both::new(Vec::new());
    for length in [0, 1, 22, 23, 103, 105, 512] {
        for byte in [0, b'A'] {
            let answer = both.call(&Call::name_of(&vec![byte; length]));
            assert_eq!((answer.outcome, answer.number), (REFUSED, 3), "{length} bytes");
        }
    }
}
