//! Paths and what they lead to, the root, and the refusals of look up and tree in their order. Every
//! expectation is worked by hand.

mod common;
use common::directories::*;
use common::*;
use reference::tree_sample::{set_root, Line, Names, Node};
use reference::*;

#[test]
fn paths() {
    let nodes = vec![
        Node::directory(vec![line("A", 1), line("F", 3), Line::new(b"N", Names::Words(0))]),
        Node::directory(vec![line("B", 2), line("F", 4), line("A", 1)]),
        Node::directory(vec![line("G", 3), line("A>B", 4)]),
        Node { lines: vec![line("G", 4)], ..Node::file(1) },
        Node::file(0),
    ];
    let image = planted(&ZERO, nodes);
    for (path, lbn) in [
        ("", 5),
        ("A", 6),
        ("a>b", 7),
        ("A>B>G", 8),
        ("F", 8),
        ("A>F", 9),
        ("A>A>a>A>B>G", 8),
        ("A>A>A>A>A>A>A>B>G", 8),
    ] {
        assert_eq!(find(&image, &ZERO, path), done(lbn, 0), "{path}");
    }
    // A dangling end; a dangling middle; a middle that is no directory; what is not there.
    assert_eq!(find(&image, &ZERO, "N"), done(0, 1));
    for path in ["N>A", "N>", "F>G", "A>F>G", "F>", "X", "A>X", "A>X>B", "B", "A>B>A>B"] {
        assert_eq!(find(&image, &ZERO, path), absent(), "{path}");
    }
    // Empty parts.
    for path in [">", ">>", ">A", "A>", "A>>B", "A>B>", ">A>B", "A>B>G>"] {
        assert_eq!(find(&image, &ZERO, path), absent(), "{path}");
    }
}

#[test]
fn an_empty_root() {
    let image = planted(&ZERO, vec![Node::directory(vec![])]);
    assert_eq!(find(&image, &ZERO, ""), done(5, 0));
    for path in ["A", ">", "A>B"] {
        assert_eq!(find(&image, &ZERO, path), absent());
    }
    for room in [0, 1, 5] {
        assert_eq!(rows(&image, &ZERO, room), (done(0, 0), vec![]));
    }
}

#[test]
fn the_root_is_not_asked_whether_it_is_a_directory() {
    for sort in [0, 2, 4, 0x0103, 0x0300, 0xFFFF] {
        let lines = vec![line("ME", 0), line("D", 1)];
        let root = Node { sort, length: 0, lines };
        let other = Node { sort, length: 0, lines: vec![line("ME", 0)] };
        let image = planted(&ZERO, vec![root, other]);
        assert_eq!(find(&image, &ZERO, ""), done(5, 0));
        assert_eq!(find(&image, &ZERO, "ME"), done(5, 0));
        // An entry's target is asked, even if it is the root.
        assert_eq!(find(&image, &ZERO, "ME>D"), absent());
        assert_eq!(find(&image, &ZERO, "D>ME"), absent());
        let filled = vec![row(5, 1, 0, "ME"), row(6, 1, 0, "D")];
        assert_eq!(rows(&image, &ZERO, 9), (done(2, 0), filled));
    }
}

#[test]
fn what_dangles() {
    // The PIB, a data block, a free block, a block behind the partition, and behind the image; nil;
    // what has only reserved bits; LDAs with bit 15 clear, of a hard drive, and of LBN 2^18 + 6; a PDA
    // and a FileID.
    let named = [
        Names::Block(0),
        Names::Block(3),
        Names::Block(416),
        Names::Block(417),
        Names::Block(428),
        Names::Words(0),
        Names::Words(7),
        Names::Smudged(1),
        Names::Words(0xC000_0600),
        Names::Words(0xE400_0600),
        Names::Words(lbn_to_pda(DRIVE, 6).a),
        Names::Words(57_344 + 6),
    ];
    for names in named {
        let nodes = vec![
            Node::directory(vec![Line::new(b"N", names), line("A", 1)]),
            Node::directory(vec![]),
        ];
        let image = planted(&ZERO, nodes);
        assert_eq!(find(&image, &ZERO, "n"), done(0, 1), "{names:?}");
        assert_eq!(find(&image, &ZERO, "n>a"), absent());
        let filled = vec![row(0, 1, 2, "N"), row(6, 1, 1, "A")];
        assert_eq!(rows(&image, &ZERO, 2), (done(2, 0), filled));
    }
}

#[test]
fn a_malformed_candidate_is_no_file_and_no_more_is_asked() {
    let nodes = || {
        let below = Node::directory(vec![line("F", 2)]);
        vec![Node::directory(vec![line("A", 1), line("B", 2)]), below, Node::file(0)]
    };
    let mut image = planted(&ZERO, nodes());
    assert_eq!(find(&image, &ZERO, "A>F"), done(7, 0));
    // The partition need not be sound.
    set_pair(&mut image, S, 8, 0);
    set_pair(&mut image, 6, 4, 0xDEAD_BEEF);
    assert_eq!(check(&image, DRIVE, S), refused(5));
    assert_eq!(find(&image, &ZERO, "A>F"), done(7, 0));
    let filled = vec![row(6, 1, 1, "A"), row(7, 2, 0, "F"), row(7, 1, 0, "B")];
    assert_eq!(rows(&image, &ZERO, 3), (done(3, 0), filled));
    // Blocks in use of 6 is wrong: refused by 4 elsewhere, dangling here.
    set_word(&mut image, 6, 8 + 249, 3);
    assert_eq!(check(&image, DRIVE, S), malformed(6));
    assert_eq!(find(&image, &ZERO, "A"), done(0, 1));
    assert_eq!(find(&image, &ZERO, "A>F"), absent());
    assert_eq!(find(&image, &ZERO, "B"), done(7, 0));
    let filled = vec![row(0, 1, 2, "A"), row(7, 1, 0, "B")];
    assert_eq!(rows(&image, &ZERO, 3), (done(2, 0), filled));
}

/// A root that names itself, so that a long path and a long walk come to the tenth level.
fn circle() -> Vec<u8> {
    planted(&ZERO, vec![Node::directory(vec![line("D", 0)])])
}

#[test]
fn a_root_that_is_no_file() {
    let image = circle();
    let lda = |lbn| lbn_to_lda(DRIVE, lbn).a;
    // Nil, only reserved bits, the PIB, a data block, free blocks, an LDA with bit 15 clear, a hard
    // drive's, a PDA; outside.
    let outside = [lda(3), lda(421), lda(431), 0xE001_B000];
    let inside = [0, 1, lda(4), lda(6), lda(7), lda(420), 0x6000_0500, 0xC000_0500, 0x0005_0017];
    for words in inside.into_iter().chain(outside) {
        let mut image = image.clone();
        set_root(&mut image, S, words);
        assert_eq!(find(&image, &ZERO, ""), refused(6));
        assert_eq!(find(&image, &ZERO, &down(10)), refused(6));
        assert_eq!(rows(&image, &ZERO, 9), (refused(6), vec![]));
        assert_eq!(rows(&image, &ZERO, 0), (refused(6), vec![]));
    }
    for (at, value) in [(2, 0), (0, 0), (8 + 249, 0), (8 + 250, 0xFFFE), (8 + 250, 4_160)] {
        let mut image = image.clone();
        set_word(&mut image, 5, at, value);
        assert_eq!(find(&image, &ZERO, ""), refused(6));
        assert_eq!(rows(&image, &ZERO, 9), (refused(6), vec![]));
    }
}

/// Both calls on these inputs, with a path and rows that come to the tenth level; they agree.
fn both(image: &[u8], drive: u32, s: u32, rule: &[u8]) -> Answer {
    let mut bytes = [0xA5; 32 * 12];
    let answer = tree(image, drive, s, rule, &mut bytes);
    assert_eq!(bytes, [0xA5; 32 * 12]);
    assert_eq!(look_up(image, drive, s, rule, down(10).as_bytes()), answer);
    answer
}

#[test]
fn the_order_of_refusals() {
    let image = circle();
    assert_eq!(both(&image, DRIVE, S, &ZERO), deep(5));
    let mut rootless = image.clone();
    set_root(&mut rootless, S, 0);
    assert_eq!(both(&rootless, DRIVE, S, &ZERO), refused(6));
    for length in [1, 25, 27, 52] {
        let rule = vec![0; length];
        assert_eq!(both(&image, DRIVE, S, &rule), refused(3));
        assert_eq!(both(&rootless, DRIVE, S, &rule), refused(3));
        for s in [0, 1, 5, 431, 432, u32::MAX] {
            assert_eq!(both(&image, DRIVE, s, &rule), refused(2));
        }
        for (drive, bytes) in [(4, &image[..]), (3, &image[1..]), (3, &[])] {
            assert_eq!(both(bytes, drive, S, &rule), refused(1));
            assert_eq!(both(bytes, drive, 0, &rule), refused(1));
        }
    }
    // 433 records are too many for a floppy.
    assert_eq!(both(&[&image[..], &[0; 528]].concat(), DRIVE, 0, &[1]), refused(1));
    assert_eq!(both(&image, DRIVE, 1, &ZERO), refused(2));
}

#[test]
fn lengths_of_rule_and_rows() {
    let image = circle();
    for length in [1, 31, 33, 63, 32 * 9 + 16] {
        for rule in [&ZERO[..], &[], &[0; 27]] {
            let mut bytes = vec![0xA5; length];
            let mut call = |image: &[u8], drive, s| tree(image, drive, s, rule, &mut bytes);
            assert_eq!(call(&image, DRIVE, S), refused(3));
            assert_eq!(call(&image, DRIVE, S + 1), refused(2));
            assert_eq!(call(&image, 4, S + 1), refused(1));
            let mut rootless = image.clone();
            set_root(&mut rootless, S, 0);
            assert_eq!(call(&rootless, DRIVE, S), refused(3));
            assert!(bytes.iter().all(|&byte| byte == 0xA5));
        }
    }
    for rule in [&[0; 25][..], &[0; 27], &[0; 1], &[0; 255]] {
        assert_eq!(find(&image, rule, ""), refused(3));
        assert_eq!(rows(&image, rule, 0).0, refused(3));
    }
    assert_eq!(find(&image, &[], ""), done(5, 0));
}
