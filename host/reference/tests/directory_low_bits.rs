//! Bits 0-7 of an LDA, request 2, in RootDirectoryID and in directory entries. Every expectation is
//! worked by hand; node i of a tree is the file at 5+i.

mod common;
use common::directories::*;
use common::low_bits::*;
use common::*;
use reference::tree_sample::{set_root, Line, Names, Node};
use reference::*;

/// The LDA of an LBN with these low bits.
fn lda(lbn: u32, bits: u32) -> u32 {
    0xE000_0000 + 256 * lbn + bits
}

/// A line that names this block with these low bits.
fn smeared(name: &str, lbn: u32, bits: u32) -> Line {
    Line::new(name.as_bytes(), Names::Words(lda(lbn, bits)))
}

#[test]
fn a_root_with_every_low_byte() {
    let mut image = planted(&ZERO, vec![Node::directory(vec![line("A", 1)]), Node::file(1)]);
    for bits in 0..=255 {
        set_root(&mut image, S, lda(5, bits));
        assert_eq!(find(&image, &ZERO, ""), done(5, 0));
        assert_eq!(find(&image, &ZERO, "A"), done(6, 0));
        assert_eq!(rows(&image, &ZERO, 2), (done(1, 0), vec![row(6, 1, 0, "A")]));
        // Without the address the bits name no root, and with the file at 6 they name that.
        set_root(&mut image, S, bits);
        assert_eq!(find(&image, &ZERO, ""), refused(6));
        assert_eq!(rows(&image, &ZERO, 2), (refused(6), vec![]));
        set_root(&mut image, S, lda(6, bits));
        assert_eq!(find(&image, &ZERO, ""), done(6, 0));
    }
}

#[test]
fn a_root_that_is_no_file_with_low_bits() {
    let mut image = planted(&ZERO, vec![Node::directory(vec![line("A", 0)])]);
    // The PIB, a data block, a free block, before and behind the partition.
    for lbn in [4, 6, 420, 3, 421] {
        set_root(&mut image, S, lda(lbn, 7));
        assert_eq!(find(&image, &ZERO, ""), refused(6));
        assert_eq!(rows(&image, &ZERO, 2), (refused(6), vec![]));
    }
}

#[test]
fn an_entry_with_every_low_byte() {
    let below = || Node::directory(vec![line("F", 2)]);
    for bits in 0..=255 {
        let lines = vec![smeared("D", 6, bits), smeared("G", 7, 255 - bits)];
        let image = planted(&ZERO, vec![Node::directory(lines), below(), Node::file(1)]);
        assert_eq!(find(&image, &ZERO, "d"), done(6, 0));
        assert_eq!(find(&image, &ZERO, "D>F"), done(7, 0));
        assert_eq!(find(&image, &ZERO, "G"), done(7, 0));
        assert_eq!(find(&image, &ZERO, "G>F"), absent());
        let filled = vec![row(6, 1, 1, "D"), row(7, 2, 0, "F"), row(7, 1, 0, "G")];
        assert_eq!(rows(&image, &ZERO, 9), (done(3, 0), filled));
    }
}

#[test]
fn what_dangles_with_low_bits() {
    // The PIB, a data block of the root, a free block, before and behind the partition; a malformed file.
    for lbn in [4, 7, 420, 3, 421, 6] {
        let nodes = vec![Node::directory(vec![smeared("N", lbn, 7)]), Node::file(0)];
        let mut image = planted(&ZERO, nodes);
        set_word(&mut image, 6, 8 + 249, 9);
        assert_eq!(find(&image, &ZERO, "N"), done(0, 1));
        assert_eq!(find(&image, &ZERO, "N>A"), absent());
        assert_eq!(rows(&image, &ZERO, 2), (done(1, 0), vec![row(0, 1, 2, "N")]));
    }
    for bits in 0..=255 {
        let only_bits = Line::new(b"N", Names::Words(bits));
        let image = planted(&ZERO, vec![Node::directory(vec![only_bits])]);
        assert_eq!(find(&image, &ZERO, "N"), done(0, 1));
        assert_eq!(rows(&image, &ZERO, 2), (done(1, 0), vec![row(0, 1, 2, "N")]));
    }
}

/// A root that names itself twice, with other bits each time: both are the root.
#[test]
fn levels_are_counted_with_low_bits() {
    let image =
        planted(&ZERO, vec![Node::directory(vec![smeared("D", 5, 1), smeared("E", 5, 0x80)])]);
    assert_eq!(find(&image, &ZERO, &down(9)), done(5, 0));
    assert_eq!(find(&image, &ZERO, "D>E>D>E>E>D>D>E>E"), done(5, 0));
    assert_eq!(find(&image, &ZERO, &down(10)), deep(5));
    let filled = (1..=8).map(|level| row(5, level, 1, "D")).collect();
    assert_eq!(rows(&image, &ZERO, 8), (done(8, 1), filled));
    assert_eq!(rows(&image, &ZERO, 9), (deep(5), vec![]));
}

/// Low bits in all addresses of the PIB and of the directories' own files.
#[test]
fn a_tree_in_files_with_low_bits() {
    // Block 93 of the root is named by pointer block -4; "F" is in block 0 of the file at 6.
    let lines = vec![line_in(93, "D", 1), smeared("N", 420, 1)];
    let nodes = vec![Node::directory(lines), Node::directory(vec![line("F", 2)]), Node::file(0)];
    let mut image = planted(&ZERO, nodes);
    let mut places = ldas_of_pib(S);
    places.push((S, 8 + 6));
    for (f, length) in [(5, 94), (6, 1), (7, 0)] {
        places.extend(ldas_of_file(&image, f, length));
    }
    lay_low_bits(&mut image, &places);
    // 94 data blocks and a pointer block with the root's FIB, 2 and 1 blocks.
    assert_eq!(check(&image, DRIVE, S), Answer { a: 3, b: 99, c: 317, ..Answer::default() });
    assert_eq!(find(&image, &ZERO, "D>F"), done(7, 0));
    let filled = vec![row(0, 1, 2, "N"), row(6, 1, 1, "D"), row(7, 2, 0, "F")];
    assert_eq!(rows(&image, &ZERO, 4), (done(3, 0), filled.clone()));
    // Changing calls leave RootDirectoryID and the entries as they are.
    let root = pair(&image, S, 8 + 6);
    assert_eq!(create(&mut image, DRIVE, S, 0, ALL).outcome, DONE);
    assert_eq!(write(&mut image, DRIVE, S, 5, 94, &[0; 512], ALL).outcome, DONE);
    assert_eq!(repair(&mut image, DRIVE, S, ALL).outcome, DONE);
    assert_eq!((pair(&image, S, 8 + 6), root & !0xFF), (root, lda(5, 0)));
    assert_eq!(rows(&image, &ZERO, 4), (done(3, 0), filled));
    assert_eq!(destroy(&mut image, DRIVE, S, 7, ALL).outcome, DONE);
    assert_eq!(find(&image, &ZERO, "D>F"), done(0, 1));
}
