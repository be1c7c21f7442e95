//! Directory entries: which are taken, in which blocks the hash rule has them, and which of equal names
//! counts. Every expectation is worked by hand.

mod common;
use common::directories::*;
use common::names::described;
use common::*;
use reference::tree_sample::{Line, Names, Node, Stand};
use reference::*;

#[test]
fn bytes_of_an_entry_and_of_its_row() {
    let mut image = sample::fresh(DRIVE, 432, 300, 431);
    assert_eq!(create(&mut image, DRIVE, 300, 0, ALL).a, 301);
    assert_eq!(create(&mut image, DRIVE, 300, 0, ALL).a, 302);
    // RootDirectoryID, PIB data words 6-7: LBN 301 is 256 + 45.
    set_word(&mut image, 300, 8 + 6, 45 << 8);
    set_word(&mut image, 300, 8 + 7, 0xE001);
    let mut block = [0; 512];
    let entry = [1, 0, 0, 46, 1, 0xE0, 3, b'L', b'o', b'g', b'!'];
    block[5 * 32..][..11].copy_from_slice(&entry);
    write(&mut image, DRIVE, 300, 301, 0, &block, ALL);
    assert_eq!(look_up(&image, DRIVE, 300, &[], b"LOG"), done(302, 0));
    let mut bytes = [7; 64];
    assert_eq!(tree(&image, DRIVE, 300, &[], &mut bytes), done(1, 0));
    let mut expected = [0; 64];
    expected[..10].copy_from_slice(&[46, 1, 0, 0, 1, 0, 3, b'L', b'o', b'g']);
    expected[32..].fill(7);
    assert_eq!(bytes, expected);
    // Word 8 of the description is 3: a directory, without entries here.
    let mut words = described(0);
    words[16] = 3;
    assert_eq!(describe(&mut image, DRIVE, 300, 302, &words, ALL), made(1));
    assert_eq!(tree(&image, DRIVE, 300, &[], &mut bytes), done(1, 0));
    expected[5] = 1;
    assert_eq!(bytes, expected);
}

/// In which of the blocks 0..=62 the name is found, looked up as `path`.
fn selected(rule: &[u8], name: &str, path: &str) -> Vec<u32> {
    let taken = |&r: &u32| {
        let image = planted(rule, vec![Node::directory(vec![line_in(r, name, 1)]), Node::file(0)]);
        let (answer, filled) = rows(&image, rule, 1);
        let found = find(&image, rule, path) == done(6, 0);
        assert_eq!((answer, filled.len()), (done(u32::from(found), 0), usize::from(found)));
        assert!(found || find(&image, rule, path) == absent());
        found
    };
    (0..=62).filter(taken).collect()
}

#[test]
fn hashes_by_hand() {
    // w0 .. w25 = 1 .. 26. "A": 1*1 + 2*65 = 131 = 4*31 + 7.
    let rising: Vec<u8> = (1..=26).collect();
    assert_eq!(selected(&rising, "A", "A"), [7, 38]);
    assert_eq!(selected(&rising, "a", "A"), [7, 38]);
    // "AB": 1*2 + 2*65 + 3*66 = 330 = 10*31 + 20; with small letters' codes it would be 490 = 15*31 + 25.
    assert_eq!(selected(&rising, "ab", "aB"), [20, 51]);
    // "{": 1*1 + 2*123 = 247 = 7*31 + 30; folded like a letter ("[", 91) it would be 183 = 5*31 + 28.
    assert_eq!(selected(&rising, "{", "{"), [30, 61]);
    // Only w25 counts, the weight of the 25th character: "C" is 67 = 2*31 + 5.
    let mut last = ZERO;
    last[25] = 1;
    assert_eq!(selected(&last, "AAAAAAAAAAAAAAAAAAAAAAAAC", "AAAAAAAAAAAAAAAAAAAAAAAAC"), [5, 36]);
    // Only w0: the length, 4.
    let mut first = ZERO;
    first[0] = 1;
    assert_eq!(selected(&first, "wxyz", "wxyz"), [4, 35]);
    // All 255, 25 times "z": 255*25 + 25*255*90 = 580,125 = 18,713*31 + 22.
    let zs = "z".repeat(25);
    assert_eq!(selected(&[255; 26], &zs, &zs), [22, 53]);
    // With no bytes every block is selected.
    assert_eq!(selected(&[], "A", "a"), (0..=62).collect::<Vec<u32>>());
}

#[test]
fn a_character_above_127_counts_as_it_is() {
    // 255*1 + 255*255 = 65,280 = 2,105*31 + 25.
    let name = [0xFF];
    let mut good = Line::new(&name, Names::Node(0));
    good.stand = Stand::Block(25);
    let image = planted(&[255; 26], vec![Node::directory(vec![good])]);
    assert_eq!(look_up(&image, DRIVE, S, &[255; 26], &name), done(5, 0));
}

#[test]
fn the_first_of_equal_names_wins() {
    // By place in the block; by block, though described later; a wrong block does not count.
    let lines = vec![
        line_in(31, "X", 1),
        line_in(0, "x", 2),
        line_in(0, "X", 3),
        line_in(1, "y", 1),
        line_in(62, "Y", 2),
        line_in(31, "y", 3),
    ];
    let files = || (0..3).map(|_| Node::file(1));
    let nodes = |lines| [Node::directory(lines)].into_iter().chain(files()).collect();
    let image = planted(&ZERO, nodes(lines));
    assert_eq!(find(&image, &ZERO, "X"), done(7, 0));
    assert_eq!(find(&image, &ZERO, "y"), done(8, 0));
    assert_eq!(find(&image, &[], "y"), done(6, 0));
    let expected = [(7, "x"), (8, "X"), (6, "X"), (8, "y"), (7, "Y")];
    let (answer, filled) = rows(&image, &ZERO, 9);
    assert_eq!(answer, done(5, 0));
    assert_eq!(filled, expected.map(|(lbn, name)| row(lbn, 1, 0, name)));
    // An invalid first one does not count.
    let invalid = Line { flags: 0xFFFE, ..line("X", 1) };
    let image = planted(&ZERO, nodes(vec![invalid, line("X", 2)]));
    assert_eq!(find(&image, &ZERO, "X"), done(7, 0));
}

#[test]
fn the_first_of_equal_names_decides_even_if_it_leads_nowhere() {
    let nil = Line::new(b"A", Names::Words(0));
    let nodes = vec![
        Node::directory(vec![nil, line("A", 1), line("B", 2), line("B", 1)]),
        Node::directory(vec![line("F", 2)]),
        Node::file(0),
    ];
    let image = planted(&ZERO, nodes);
    assert_eq!(find(&image, &ZERO, "A"), done(0, 1));
    assert_eq!(find(&image, &ZERO, "A>F"), absent());
    assert_eq!(find(&image, &ZERO, "B"), done(7, 0));
    assert_eq!(find(&image, &ZERO, "B>F"), absent());
}

#[test]
fn only_letters_are_folded() {
    let names: [&[u8]; 6] = [b"Az", b"@", b"[", b"\xC4", b"k1-Z", b"0"];
    let lines = names.map(|name| Line::new(name, Names::Node(1))).to_vec();
    for rule in [&ZERO[..], &[]] {
        let image = planted(rule, vec![Node::directory(lines.clone()), Node::file(0)]);
        let look = |path: &[u8]| look_up(&image, DRIVE, S, rule, path);
        for path in [&b"Az"[..], b"aZ", b"AZ", b"az", b"@", b"[", b"\xC4", b"K1-z", b"0"] {
            assert_eq!(look(path), done(6, 0));
        }
        for path in [&b"`"[..], b"{", b"\xE4", b"k1\rz", b"\x10", b"P", b"A", b"Azz", b"Az "] {
            assert_eq!(look(path), absent());
        }
    }
}

#[test]
fn which_entries_are_taken() {
    let names = "0123456789012345678901234";
    for (flags, length, taken) in [
        (1, 25, true),
        (3, 25, true),
        (0xFFFF, 25, true),
        (0x8001, 1, true),
        (0, 25, false),
        (2, 25, false),
        (0xFFFE, 25, false),
        (0x0100, 25, false),
        (1, 0, false),
        (1, 26, false),
        (1, 27, false),
        (1, 128, false),
        (1, 255, false),
    ] {
        let only = Line { flags, length, ..line(names, 1) };
        let image = planted(&ZERO, vec![Node::directory(vec![only]), Node::file(0)]);
        for rule in [&ZERO[..], &[]] {
            let name = &names[..usize::from(length).min(25)];
            assert_eq!(rows(&image, rule, 3).0, done(u32::from(taken), 0));
            if taken {
                assert_eq!(find(&image, rule, name), done(6, 0));
                assert_eq!(rows(&image, rule, 3).1, [row(6, 1, 0, name)]);
            } else if length > 0 {
                assert_eq!(find(&image, rule, name), absent());
            }
            assert_eq!(find(&image, rule, &format!("{name}?")), absent());
        }
    }
}

#[test]
fn a_wrong_block_with_a_rule_and_without() {
    let nodes = vec![
        Node::directory(vec![line_in(1, "W", 1), line_in(30, "V", 1), line_in(32, "U", 1)]),
        Node::file(0),
    ];
    let image = planted(&ZERO, nodes);
    for path in ["W", "V", "U"] {
        assert_eq!(find(&image, &ZERO, path), absent());
        assert_eq!(find(&image, &[], path), done(6, 0));
    }
    assert_eq!(rows(&image, &ZERO, 4), (done(0, 0), vec![]));
    let filled = ["W", "V", "U"].map(|name| row(6, 1, 0, name)).to_vec();
    assert_eq!(rows(&image, &[], 4), (done(3, 0), filled));
}

#[test]
fn a_full_block_overflows() {
    // 33 names of block 0: 16 there, 16 in block 31, one in block 62.
    let names: Vec<String> = (0..33).map(|i| format!("N{i:02}")).collect();
    let lines = names.iter().map(|name| line(name, 1)).collect();
    let image = planted(&ZERO, vec![Node::directory(lines), Node::file(3)]);
    assert_eq!(inspect::file_blocks(&image, DRIVE, S, 5).unwrap().len(), 64);
    for name in &names {
        assert_eq!(find(&image, &ZERO, name), done(6, 0));
    }
    let filled = names.iter().map(|name| row(6, 1, 0, name)).collect();
    assert_eq!(rows(&image, &ZERO, 33), (done(33, 0), filled));
}

#[test]
fn a_directory_with_pointer_blocks_is_looked_through() {
    // Blocks 93 and 217 = 3*31 and 7*31 are named by pointer blocks -4 and -5.
    let lines = vec![line_in(93, "A", 1), line_in(217, "B", 1), line_in(216, "C", 1)];
    let image = planted(&ZERO, vec![Node::directory(lines), Node::file(0)]);
    assert_eq!(find(&image, &ZERO, "A"), done(6, 0));
    assert_eq!(find(&image, &ZERO, "B"), done(6, 0));
    assert_eq!(find(&image, &ZERO, "C"), absent());
    assert_eq!(find(&image, &[], "C"), done(6, 0));
}
