//! Request 5: the names that describe refuses by 12, which rule each breaks and where, and that nothing
//! else asks about names. Every expectation in a table is worked by hand.

mod common;
use common::names::*;
use common::*;
use reference::sample::{named, random_name, Rng};
use reference::*;

/// On a floppy, s = 2, e = 20: file 3 (L = 1, blocks 5 and 6), file 4 (L = -1), free from 7 on.
fn image() -> Vec<u8> {
    sample::scattered(3, 22, 2, 20, &[2, 0], 1)
}

/// The call `name` gives this rule and place; describe agrees, and a refusal changes no byte.
fn judged(words: &[u8], rule: u32, place: u32) {
    assert_eq!(name(words), done(rule, place), "{words:?}");
    let before = image();
    let (mut after, mut expected) = (before.clone(), before.clone());
    let plan = plan_describe(&before, 3, 2, 3, words);
    let answer = if rule == 0 { made(1) } else { refused(12) };
    if rule == 0 {
        expected[528 * 3 + 16..][..104].copy_from_slice(words);
    }
    assert_eq!(describe(&mut after, 3, 2, 3, words, ALL), answer, "{words:?}");
    assert!(after == expected);
    assert_eq!((plan.answer, plan.stores.len()), (answer, answer.made as usize));
}

/// The same, whatever stands in words 0-10 and behind the name.
fn breaks(text: &[u8], rule: u32, place: u32) {
    for around in [0, 31, b' ', b'.', b'/', b':', b'<', b'>', b'a', 127, 255] {
        judged(&named_among(around, text), rule, place);
    }
}

fn good(text: &[u8]) {
    breaks(text, 0, 0);
}

/// So many letters, then this.
fn after_letters(count: usize, text: &[u8]) -> Vec<u8> {
    [&[b'x'].repeat(count), text].concat()
}

#[test]
fn the_bytes_of_a_name() {
    let mut words = [0; 104];
    words[22..26].copy_from_slice(&[3, b'L', b'o', b'g']);
    judged(&words, 0, 0);
    // Byte 23 is the first character, and byte 25 the third.
    words[25] = b':';
    judged(&words, 3, 3);
    words[23] = b':';
    judged(&words, 3, 1);
    // Byte 26 is behind the name, and bytes 0 to 21 are no part of it.
    words[23..27].copy_from_slice(b"Log:");
    words[..22].fill(b':');
    judged(&words, 0, 0);
    // Byte 102 is the eightieth character, byte 103 never is one.
    words = [b'x'; 104];
    words[22] = 80;
    words[103] = b':';
    judged(&words, 0, 0);
    words[102] = b':';
    judged(&words, 3, 80);
}

#[test]
fn lengths() {
    breaks(b"", 1, 0);
    for length in [1, 2, 25, 26, 79, 80] {
        good(&after_letters(length, b""));
    }
    breaks(&after_letters(81, b""), 1, 0);
    for length in 0..=255 {
        let mut words = [b'x'; 104];
        words[22] = length;
        judged(&words, if (1..=80).contains(&length) { 0 } else { 1 }, 0);
    }
}

#[test]
fn with_a_wrong_length_no_character_is_looked_at() {
    for length in [0, 81, 82, 128, 254, 255] {
        for byte in [0, 31, 127, b'<', b'/', b':', b'>'] {
            let mut words = [byte; 104];
            words[22] = length;
            judged(&words, 1, 0);
        }
    }
}

/// This character first, in the middle, last and alone, and in the same places of the longest name.
fn everywhere(character: u8, rule: u32) {
    let place = |place| if rule == 0 { 0 } else { place };
    breaks(&[character], rule, place(1));
    breaks(&[character, b'a', b'b'], rule, place(1));
    breaks(&[b'a', character, b'b'], rule, place(2));
    breaks(&[b'a', b'b', character], rule, place(3));
    for at in [0, 39, 79] {
        let mut text = [b'x'; 80];
        text[at] = character;
        breaks(&text, rule, place(at as u32 + 1));
    }
}

#[test]
fn characters() {
    let rows = [(0, 2), (1, 2), (9, 2), (10, 2), (31, 2), (32, 0), (126, 0), (127, 2), (128, 0)];
    for (character, rule) in rows {
        everywhere(character, rule);
    }
    // Those with bit 7 set whose other bits are 0, 31, 127 and the three reserved characters'.
    for character in [128, 159, 255, b'/' + 128, b':' + 128, b'<' + 128, b'>' + 128] {
        everywhere(character, 0);
    }
    for (character, rule) in [(b'<', 3), (b'/', 3), (b':', 3)] {
        everywhere(character, rule);
    }
    // The neighbours of the reserved characters, and other marks.
    for character in *b".09;=?@\\|\"*$-_~!#'()[]{}" {
        everywhere(character, 0);
    }
}

#[test]
fn every_character_in_the_middle() {
    for character in 0..=255 {
        let rule = match character {
            0..=31 | 127 => 2,
            47 | 58 | 60 => 3,
            _ => 0,
        };
        judged(&named(&[b'a', character, b'b']), rule, if rule == 0 { 0 } else { 2 });
    }
}

#[test]
fn behind_the_length_nothing_counts() {
    for bad in ["<", "/", ":", "\x00", "\x1F", "\x7F", ">", ">.>", ">..>", ">.>a"] {
        for length in [1, 2, 40, 77] {
            let mut words = named(&after_letters(length, bad.as_bytes()));
            words[22] = length as u8;
            judged(&words, 0, 0);
        }
    }
    for bad in [b'<', b'/', b':', 0, 31, 127, b'>'] {
        let mut words = named(&after_letters(80, &[bad]));
        words[22] = 80;
        judged(&words, 0, 0);
    }
}

#[test]
fn final_joints() {
    let rows: [(&[u8], u32); 8] = [
        (b">", 1),
        (b">>", 2),
        (b">>>", 3),
        (b"a>", 2),
        (b"a>>", 3),
        (b">a>", 3),
        (b"a>b>", 4),
        (b".>", 2),
    ];
    for (text, place) in rows {
        breaks(text, 4, place);
    }
    breaks(&after_letters(78, b">"), 4, 79);
    breaks(&after_letters(79, b">"), 4, 80);
    breaks(&after_letters(78, b">>"), 4, 80);
    // The eighty-first character makes the length wrong.
    breaks(&after_letters(80, b">"), 1, 0);
}

#[test]
fn joints_that_are_not_final() {
    let rows: [&[u8]; 8] = [b">a", b">>a", b">>>a", b"a>b", b"a>>b", b"a>>>b", b">a>b", b"a> "];
    for text in rows {
        good(text);
    }
    good(&after_letters(78, b">x"));
    // A part longer than 25 characters.
    good(&after_letters(26, b">xxxxxxxxxxxxxxxxxxxxxxxxxxxxxx>x"));
}

#[test]
fn dots_between_joints() {
    let rows: [(&[u8], u32); 22] = [
        // At the very start.
        (b">.>a", 1),
        (b">..>a", 1),
        // Inside.
        (b"a>.>b", 2),
        (b"a>..>b", 2),
        (b"abc>.>b", 4),
        (b"abc>..>b", 4),
        // At the end: the final ">" stands later.
        (b">.>", 1),
        (b">..>", 1),
        (b"a>.>", 2),
        (b"a>..>", 2),
        // Beside other joints.
        (b">>.>a", 2),
        (b">>..>a", 2),
        (b">.>>a", 1),
        (b">..>>a", 1),
        // The first of several.
        (b"a>.>.>b", 2),
        (b"a>..>.>b", 2),
        (b"a>.>..>b", 2),
        (b"a>b>.>c>..>d", 4),
        // Behind a part that is allowed.
        (b".>.>a", 2),
        (b"..>..>a", 3),
        (b">...>.>a", 5),
        (b">.a>..>b", 4),
    ];
    for (text, place) in rows {
        breaks(text, 5, place);
    }
    breaks(&after_letters(77, b">.>"), 5, 78);
    breaks(&after_letters(76, b">..>"), 5, 77);
    breaks(&after_letters(76, b">.>x"), 5, 77);
}

#[test]
fn dots_that_are_allowed() {
    let first_part = [".>a", "..>a", ".>..", "..>.", ".>.", "..>.."];
    let last_part = ["a>.", "a>..", ">.", ">..", ">>.", ">>.."];
    let only_part = [".", "..", "...", "a.", ".a"];
    let three_dots = [">...>a", "a>...>b", "a>....>b", "a>...", "...>a"];
    let not_alone = [">.a>b", ">a.>b", ">..a>b", ">a..>b", ">. >b", "> ..>b", "a.>b", "a>.b"];
    for texts in [&first_part[..], &last_part, &only_part, &three_dots, &not_alone] {
        texts.iter().for_each(|text| good(text.as_bytes()));
    }
    // The length cuts the second joint off: `good` lays ">" behind, as the eighty-first character too.
    good(&after_letters(78, b">."));
    good(&after_letters(77, b">.."));
    good(&after_letters(2, b">."));
    // The length cuts the dots off, and the first joint is final.
    breaks(b"ab>", 4, 3);
}

#[test]
fn the_first_place_decides() {
    let rows: [(&[u8], u32, u32); 16] = [
        (b"<\x1F", 3, 1),
        (b"\x1F<", 2, 1),
        (b"a\x7F/", 2, 2),
        (b"a/\x7F", 3, 2),
        (b"a:>", 3, 2),
        (b"a\x00>", 2, 2),
        (b"a>\x00", 2, 3),
        (b">:", 3, 2),
        (b"a>.><", 5, 2),
        (b"a>..>\x01", 5, 2),
        (b"a<>.>b", 3, 2),
        (b"\x1F>..>b", 2, 1),
        // A bad character between joint and joint.
        (b"a>.\x7F>b", 2, 4),
        (b">:.>b", 3, 2),
        (b">./.>", 3, 3),
        (b">.<", 3, 3),
    ];
    for (text, rule, place) in rows {
        breaks(text, rule, place);
    }
}

/// All names of up to six characters over those that matter, and random ones of every length.
#[test]
fn names_agree_with_the_other_shape_of_the_rule() {
    let agrees = |words: &[u8]| {
        let (rule, place) = first_fault(words);
        assert_eq!(name(words), done(rule, place), "{words:?}");
    };
    let mut texts: Vec<Vec<u8>> = vec![Vec::new()];
    for _ in 0..6 {
        let longer = |text: &Vec<u8>| b"a.></\x1F".map(|c| [&text[..], &[c]].concat());
        texts = texts.iter().flat_map(longer).collect();
        texts.iter().for_each(|text| agrees(&named_among(b'>', text)));
    }
    let mut rng = Rng::new(5);
    (0..20_000).for_each(|_| agrees(&random_name(&mut rng)));
    for _ in 0..2_000 {
        let mut words = [0; 104];
        rng.fill(&mut words);
        agrees(&words);
    }
}

#[test]
fn a_buffer_that_is_no_description() {
    for byte in [0, b'a', b':', 80] {
        for length in [0, 1, 22, 23, 103, 105, 208, 512] {
            assert_eq!(name(&vec![byte; length]), refused(3));
        }
    }
    let words = described(0);
    assert_eq!(name(&words), done(0, 0));
    assert_eq!(name(&words[..103]), refused(3));
}

/// Each set of causes, out of those for which describe is refused: the first of them is given.
#[test]
fn order_of_refusals() {
    let order = [1, 2, 3, 12, 4, 5, 6];
    for causes in 0..128_u32 {
        let given: Vec<u32> =
            (0..7).filter(|i| causes >> i & 1 == 1).map(|i: usize| order[i]).collect();
        let has = |number: u32| given.contains(&number);
        let mut before = image();
        if has(4) {
            set_word(&mut before, 4, 8 + 249, 9);
        }
        if has(5) {
            set_word(&mut before, 2, 8 + 4, 0);
        }
        let drive = if has(1) { 4 } else { 3 };
        let s = if has(2) { 3 } else { 2 };
        let f = if has(6) { 5 } else { 3 };
        let words = named(if has(12) { b"a>" } else { b"a" });
        let buffer = if has(3) { &words[..103] } else { &words[..] };
        let expected = match given.first() {
            None => made(1),
            Some(4) => malformed(4),
            Some(&number) => refused(number),
        };
        let mut after = before.clone();
        assert_eq!(describe(&mut after, drive, s, f, buffer, ALL), expected, "{given:?}");
        assert_eq!(plan_describe(&before, drive, s, f, buffer).answer, expected);
        assert!(given.is_empty() || after == before);
    }
}

#[test]
fn twelve_after_three_and_before_four() {
    let (good, bad) = (named(b"a"), named(b"a:b"));
    let mut torn = image();
    set_word(&mut torn, 3, 8 + 249, 9);
    for limit in [0, 1, ALL] {
        assert_eq!(describe(&mut torn.clone(), 3, 2, 3, &bad, limit), refused(12));
        assert_eq!(describe(&mut torn.clone(), 3, 2, 3, &good, limit), malformed(3));
        assert_eq!(describe(&mut torn.clone(), 3, 2, 3, &bad[..103], limit), refused(3));
        assert_eq!(describe(&mut torn.clone(), 3, 3, 3, &bad, limit), refused(2));
        assert_eq!(describe(&mut torn.clone(), 0, 2, 3, &bad, limit), refused(2));
        assert_eq!(describe(&mut torn.clone(), 4, 2, 3, &bad, limit), refused(1));
        assert_eq!(describe(&mut [0; 527], 3, 2, 3, &bad, limit), refused(1));
    }
    let mut loose = image();
    set_word(&mut loose, 2, 8 + 4, 0);
    assert_eq!(describe(&mut loose, 3, 2, 3, &bad, ALL), refused(12));
    assert_eq!(describe(&mut loose, 3, 2, 3, &good, ALL), refused(5));
    let mut whole = image();
    for f in [0, 2, 5, 7, 21, u32::MAX] {
        assert_eq!(describe(&mut whole, 3, 2, f, &bad, ALL), refused(12));
        assert_eq!(describe(&mut whole, 3, 2, f, &good, ALL), refused(6));
    }
    assert_eq!(describe(&mut whole, 3, 2, 3, &bad, ALL), refused(12));
    assert!(whole == image());
}

#[test]
fn a_good_name_under_a_limit() {
    let (before, words) = (image(), described(7));
    let mut after = before.clone();
    assert_eq!(describe(&mut after, 3, 2, 3, &words, 0), made(0));
    assert!(after == before);
    assert_eq!(describe(&mut after, 3, 2, 3, &words, 1), made(1));
    assert!(after[528 * 3 + 16..][..104] == words);
}

#[test]
fn create_leaves_zeros() {
    let mut image = image();
    // The first free block holds a name from before.
    image[528 * 7 + 16..][..104].fill(b'a');
    assert_eq!(create(&mut image, 3, 2, 1, ALL).a, 7);
    let mut words = [7; 104];
    assert_eq!(description(&image, 3, 2, 7, &mut words), Answer::default());
    assert_eq!(words, [0; 104]);
    assert_eq!(name(&words), done(1, 0));
    assert_eq!(check(&image, 3, 2), Answer { a: 3, b: 5, c: 13, ..Answer::default() });
}

/// The image with this description laid into the FIB of 3.
fn laid(words: &[u8]) -> Vec<u8> {
    let mut image = image();
    image[528 * 3 + 16..][..104].copy_from_slice(words);
    image
}

/// What the calls that change nothing answer, but for the bytes of the description.
fn readings(image: &[u8]) -> Vec<Answer> {
    let (mut block, mut file) = ([0; 512], [0; 1024]);
    vec![
        check(image, 3, 2),
        next_file(image, 3, 2, 2),
        next_file(image, 3, 2, 3),
        read(image, 3, 2, 3, 1, &mut block),
        show(image, 3, 2, 3, 0),
        show_pair(image, image, 3, 2, 3, 1),
        extract(image, 3, 2, 3, &mut file),
    ]
}

#[test]
fn bad_names_on_the_disk_stay_readable() {
    let texts: [&[u8]; 7] = [b"", b"\x1F", b"a<b", b"a>", b">.>a", b"a>..>b", &[b'x'; 81]];
    for text in texts {
        let words = named_among(9, text);
        let image = laid(&words);
        assert!(readings(&image) == readings(&self::image()));
        let mut copied = [0; 104];
        assert_eq!(description(&image, 3, 2, 3, &mut copied), Answer::default());
        assert_eq!(copied, words);
    }
}

#[test]
fn other_changing_calls_take_no_notice_of_a_bad_name() {
    let words = named_among(9, b"a>..>b");
    let mut image = laid(&words);
    let kept = |image: &[u8]| image[528 * 3 + 16..][..104] == words;
    assert_eq!(repair(&mut image, 3, 2, ALL).outcome, DONE);
    assert_eq!(write(&mut image, 3, 2, 3, 0, &[1; 512], ALL), made(1));
    assert_eq!(write(&mut image, 3, 2, 3, 2, &[1; 512], ALL), made(5));
    assert_eq!(create(&mut image, 3, 2, 0, ALL).a, 8);
    // Another file is described while this one has its bad name.
    assert_eq!(describe(&mut image, 3, 2, 4, &named(b"b"), ALL), made(1));
    // The bad name that stands there is not taken again.
    assert_eq!(describe(&mut image, 3, 2, 3, &words, ALL), refused(12));
    assert!(kept(&image) && check(&image, 3, 2).outcome == DONE);
    let mut gone = image.clone();
    assert_eq!(destroy(&mut gone, 3, 2, 3, ALL).outcome, DONE);
    assert_eq!(describe(&mut image, 3, 2, 3, &described(9), ALL), made(1));
    assert!(!kept(&image));
}
