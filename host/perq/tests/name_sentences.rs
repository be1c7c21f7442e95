//! What is said of a bad name is true of it: the rule that is named is broken at the place that is named, and no rule before
//! it; once that is mended, the next fault stands further on, or there is none. The sentences are held to the bytes.

use perq::{Drive, NameFault, Refusal, ALL};
use reference::sample::{fresh, named, random_name};
use trials::settings::{cases, rng};

/// The characters of a name: as many as its length says, if there are so many.
fn characters(description: &[u8; 104]) -> &[u8] {
    &description[23..][..usize::from(description[22]).min(81)]
}

/// Whether a rule, taken by itself, is broken; the place counts from 1, and is 0 for the length.
fn is_broken(rule: u32, place: usize, description: &[u8; 104]) -> bool {
    let name = characters(description);
    let behind = |pieces: &[&[u8]]| pieces.iter().any(|piece| name[place - 1..].starts_with(piece));
    match rule {
        1 => place == 0 && !(1..=80).contains(&description[22]),
        2 => name[place - 1] < b' ' || name[place - 1] == 0x7F,
        3 => behind(&[b"<", b"/", b":"]),
        4 => place == name.len() && name[place - 1] == b'>',
        5 => behind(&[b">.>", b">..>"]),
        _ => panic!("there is no rule {rule}"),
    }
}

/// The sentence for a rule that is broken at a place, made of the bytes that stand there.
fn sentence(rule: u32, place: usize, description: &[u8; 104]) -> String {
    let byte = description[22 + place];
    match rule {
        1 if byte == 0 => "the name has no characters".to_string(),
        1 => format!("the name has {byte} characters, and 80 is the most"),
        2 => format!("character {place} of the name is a control character ({byte})"),
        3 => {
            let letter = byte as char;
            format!("character {place} of the name is \"{letter}\", which no name may have")
        }
        4 => "the name ends in \">\"".to_string(),
        _ => {
            let is_one = characters(description)[place..].starts_with(b".>");
            let dots = if is_one { "." } else { ".." };
            format!("\">{dots}>\" stands at character {place} of the name")
        }
    }
}

/// The same description with the character at fault, or the length, replaced by a good one.
fn mended(fault: NameFault, description: &[u8; 104]) -> [u8; 104] {
    let mut mended = *description;
    match fault.place() as usize {
        0 => mended[22] = 80,
        place => mended[22 + place] = b'a',
    }
    mended
}

/// Everything that is said of one name; answers the rule that it breaks, or 0.
fn must_be_true(description: &[u8; 104]) -> u32 {
    let told = description.escape_ascii();
    let length = characters(description).len();
    let Err(fault) = perq::name(description) else {
        assert!((1..=80).contains(&length), "{told}");
        assert!((1..=length).all(|place| none_at(place, description)), "{told}");
        return 0;
    };
    let (rule, place) = (fault.rule(), fault.place() as usize);
    assert!(is_broken(rule, place, description), "{fault:?}: {told}");
    assert!((1..place).all(|earlier| none_at(earlier, description)), "{fault:?}: {told}");
    assert_eq!(fault.to_string(), sentence(rule, place, description), "{told}");
    if let Err(next) = perq::name(&mended(fault, description)) {
        assert!(next.place() > fault.place(), "{fault:?}, then {next:?}: {told}");
    }
    rule
}

/// Whether no rule about characters is broken at a place.
fn none_at(place: usize, description: &[u8; 104]) -> bool {
    (2..=5).all(|rule| !is_broken(rule, place, description))
}

#[test]
fn of_random_names() {
    let (mut rng, mut met) = (rng(110), [0; 6]);
    for _ in 0..cases(40_000) {
        met[must_be_true(&random_name(&mut rng)) as usize] += 1;
    }
    assert!(met.iter().all(|&count| count > 100), "{met:?}");
}

/// A name of which the faults are mended one after the other: the rule and the place of each. Every zero behind a name that has
/// no characters is one.
fn step_by_step(name: &[u8], faults: &[(u32, u32)]) {
    let mut description = named(name);
    for &expected in faults {
        let fault = perq::name(&description).expect_err("a fault");
        assert_eq!((fault.rule(), fault.place()), expected, "{}", name.escape_ascii());
        must_be_true(&description);
        description = mended(fault, &description);
    }
    assert_eq!(perq::name(&description).is_err(), name.is_empty(), "{}", name.escape_ascii());
}

#[test]
fn of_names_that_are_mended_step_by_step() {
    step_by_step(b"a/b:c<", &[(3, 2), (3, 4), (3, 6)]);
    step_by_step(b">.>..>", &[(5, 1), (5, 3), (4, 6)]);
    step_by_step(b"\x00>/>.>", &[(2, 1), (3, 3), (5, 4), (4, 6)]);
    step_by_step(b">>", &[(4, 2)]);
    step_by_step(b"", &[(1, 0), (2, 1), (2, 2)]);
}

#[test]
fn the_sentences() {
    let drive = Drive::Shugart12;
    let mut image = fresh(drive.number(), 8, 1, 7);
    let file = perq::create(&mut image, drive, 1, 0, ALL).expect("room").file;
    let long = [b'x'; 81];
    let told: [(&[u8], &str); 10] = [
        (b"", "the name has no characters"),
        (&long, "the name has 81 characters, and 80 is the most"),
        (b"ab\x1f", "character 3 of the name is a control character (31)"),
        (b"\x7f", "character 1 of the name is a control character (127)"),
        (b"abcd<", "character 5 of the name is \"<\", which no name may have"),
        (b"a/b", "character 2 of the name is \"/\", which no name may have"),
        (b"sys:a", "character 4 of the name is \":\", which no name may have"),
        (b"letters>", "the name ends in \">\""),
        (b"abc>..>d", "\">..>\" stands at character 4 of the name"),
        (b">.>", "\">.>\" stands at character 1 of the name"),
    ];
    for (name, sentence) in told {
        let before = image.clone();
        let refusal = perq::describe(&mut image, drive, 1, file, &named(name), ALL).unwrap_err();
        assert_eq!(refusal.to_string(), format!("refused (12): {sentence}"));
        assert_eq!(refusal, Refusal::Name(perq::name(&named(name)).unwrap_err()));
        assert_eq!((refusal.number(), image), (12, before.clone()));
        image = before;
    }
    let mut length = named(b"a");
    length[22] = 255;
    let fault = perq::name(&length).unwrap_err();
    assert_eq!(fault.to_string(), "the name has 255 characters, and 80 is the most");
}

#[test]
fn twelve_is_no_refusal_without_its_fault() {
    assert_eq!(Refusal::from_number(12, 0), None);
    let refusal = Refusal::from(NameFault::FinalJoint { place: 3 });
    assert_eq!(
        (refusal.number(), refusal),
        (12, Refusal::Name(NameFault::FinalJoint { place: 3 }))
    );
}
