//! The sample images are sound, and are what the calls would make. Sample descriptions have the names
//! they should.

mod common;
use common::*;
use reference::sample::{blank, content, fresh, growth, named, random_name, scattered, Rng};
use reference::*;

#[test]
fn blank_is_repaired_to_fresh() {
    for (drive, n, s, e) in [(0, 8, 1, 7), (1, 500, 3, 400), (2, 3, 1, 2), (3, 432, 100, 431)] {
        let mut image = blank(drive, n, s, e);
        assert_eq!(image.len(), 528 * n as usize);
        assert_eq!(check(&image, drive, s), refused(5));
        assert_eq!(repair(&mut image, drive, s, ALL).made, e - s + 1);
        assert!(image == fresh(drive, n, s, e));
        assert_eq!(check(&image, drive, s), Answer { c: e - s, ..Answer::default() });
    }
}

#[test]
fn scattered_is_what_the_calls_make() {
    let lengths = [130, 0, 1, 193, 10, 65];
    for (drive, seed) in [(0, 1), (1, 2), (2, 3), (3, 4)] {
        let mut image = blank(drive, 432, 2, 430);
        repair(&mut image, drive, 2, ALL);
        for i in 0..lengths.len() {
            assert_eq!(create(&mut image, drive, 2, i as u16, ALL).a, 3 + i as u32);
        }
        let mut grown = [0; 6];
        for i in growth(&lengths, seed) {
            let data = content(seed, i, grown[i]);
            let answer = write(&mut image, drive, 2, 3 + i as u32, grown[i], &data, ALL);
            assert_eq!(answer.outcome, DONE);
            grown[i] += 1;
        }
        assert_eq!(grown, lengths);
        assert!(image == scattered(drive, 432, 2, 430, &lengths, seed));
    }
}

#[test]
fn large_partitions_are_sound() {
    let lengths: [u32; 12] = [4_160, 4_160, 4_159, 4_000, 3_000, 1_000, 192, 191, 64, 63, 1, 0];
    let blocks = |&length: &u32| 1 + length + length.saturating_sub(64).div_ceil(128);
    let owned: u32 = lengths.iter().map(blocks).sum();
    let image = scattered(2, 69_552, 30_000, 62_766, &lengths, 7);
    let expected = Answer { a: 12, b: owned, c: 32_766 - owned, ..Answer::default() };
    assert_eq!(check(&image, 2, 30_000), expected);
    let full = scattered(0, 4_200, 1, 4_195, &[4_160], 7);
    assert_eq!(check(&full, 0, 1), Answer { a: 1, b: 4_193, c: 1, ..Answer::default() });
}

#[test]
fn double_indexes_are_sound() {
    // Blocks in use: 4,196 and 1 + 22,001 + 172 + 2 and 4,325; 20,709 and 4,193.
    for (lengths, owned) in [(&[4_161, 22_001, 4_289][..], 30_697), (&[20_545, 4_160], 24_902)] {
        let image = scattered(2, 40_000, 5_000, 37_766, lengths, 7);
        let answer = check(&image, 2, 5_000);
        assert_eq!((answer.outcome, answer.a, answer.b), (DONE, lengths.len() as u32, owned));
    }
    for drive in [1, 2] {
        let image = scattered(drive, 40_000, 5_000, 37_766, &[32_508], 7);
        let expected = Answer { a: 1, b: 32_765, c: 1, ..Answer::default() };
        assert_eq!(check(&image, drive, 5_000), expected);
    }
}

#[test]
fn double_indexes_are_what_the_calls_make() {
    let lengths = [4_290, 4_165];
    let mut image = fresh(0, 8_600, 3, 8_590);
    for i in 0..2 {
        assert_eq!(create(&mut image, 0, 3, i, ALL).a, 4 + u32::from(i));
    }
    let mut grown = [0; 2];
    for i in growth(&lengths, 6) {
        let data = content(6, i, grown[i]);
        assert_eq!(write(&mut image, 0, 3, 4 + i as u32, grown[i], &data, ALL).outcome, DONE);
        grown[i] += 1;
    }
    assert!(image == scattered(0, 8_600, 3, 8_590, &lengths, 6));
}

#[test]
fn scattered_files_are_interleaved() {
    let image = scattered(1, 1_000, 1, 999, &[300, 300], 9);
    let blocks = inspect::file_blocks(&image, 1, 1, 2).unwrap();
    let gaps = blocks[3..].windows(2).filter(|pair| pair[1] != pair[0] + 1).count();
    assert!(gaps > 100);
    assert!(image != scattered(1, 1_000, 1, 999, &[300, 300], 10));
}

#[test]
fn the_generator_is_deterministic() {
    let numbers = |seed| {
        let mut rng = Rng::new(seed);
        (0..100).map(|_| rng.number()).collect::<Vec<u64>>()
    };
    assert_eq!(numbers(0), numbers(0));
    assert_ne!(numbers(0), numbers(1));
    let mut rng = Rng::new(5);
    let mut seen = [0; 10];
    (0..1_000).for_each(|_| seen[rng.below(10) as usize] += 1);
    assert!(seen.iter().all(|&times| times > 50));
}

#[test]
fn named_descriptions() {
    let mut words = [0; 104];
    assert_eq!(named(b""), words);
    words[22..26].copy_from_slice(&[3, b'L', b'o', b'g']);
    assert_eq!(named(b"Log"), words);
    words[22] = 81;
    words[23..].fill(b'x');
    assert_eq!(named(&[b'x'; 81]), words);
}

#[test]
#[should_panic(expected = "at most 81 characters")]
fn a_name_of_82_characters_does_not_fit() {
    named(&[b'x'; 82]);
}

#[test]
fn random_names_are_good_and_bad_at_the_limits() {
    let mut rng = Rng::new(6);
    let (mut rules, mut good_lengths, mut lengths) = ([0; 6], [0; 256], [0; 256]);
    for _ in 0..10_000 {
        let words = random_name(&mut rng);
        let rule = name(&words).a;
        rules[rule as usize] += 1;
        lengths[usize::from(words[22])] += 1;
        good_lengths[usize::from(words[22])] += u32::from(rule == 0);
    }
    assert!((4_500..=5_500).contains(&rules[0]), "{rules:?}");
    assert!(rules[1..].iter().all(|&times| times > 300), "{rules:?}");
    assert!([0, 1, 2, 79, 80, 81, 82, 255].iter().all(|&at: &usize| lengths[at] > 100));
    assert!([1, 2, 79, 80].iter().all(|&at: &usize| good_lengths[at] > 100));
    assert!((1..=80).all(|at| good_lengths[at] > 0));
}

#[test]
fn random_names_have_what_would_be_bad_behind_them() {
    let mut rng = Rng::new(7);
    let (mut joint, mut dots, mut reserved) = (0, 0, 0);
    for _ in 0..10_000 {
        let words = random_name(&mut rng);
        if name(&words).a != 0 {
            continue;
        }
        let (text, behind) = words[23..].split_at(usize::from(words[22]));
        joint += u32::from(behind.starts_with(b">"));
        reserved += u32::from(behind.starts_with(b"<"));
        let cut_off = |end: &[u8]| text.ends_with(end) && behind.starts_with(b">");
        dots += u32::from(cut_off(b">.") || cut_off(b">.."));
    }
    assert!(joint > 100 && dots > 50 && reserved > 20, "{joint} {dots} {reserved}");
}
