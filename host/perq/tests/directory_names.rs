//! Names, paths and hash rules through the typed calls, with trees small enough to work every answer out by hand.

mod common;
use common::{block, directory, image, ladder, led, listed, small, DRIVE, S};
use perq::{look_up, tree, Refusal, Rule, Target, What, JOINT};
use reference::tree_sample::{Line, Names, Node, Stand};

#[test]
fn paths_of_a_small_tree() {
    let image = small();
    let file = |node| Ok(Some(Target::File(block(node))));
    for (path, expected) in [
        ("", file(0)),
        ("notes", file(2)),
        ("SUB", file(1)),
        ("sub>dEEP.pAS", file(3)),
        ("Last", file(3)),
        ("Sub>Gone", Ok(Some(Target::Dangling))),
        ("Sub>Gone>Notes", Ok(None)),
        ("Notes>Sub", Ok(None)),
        ("Deep.Pas", Ok(None)),
        ("Sub>", Ok(None)),
        (">Sub", Ok(None)),
        (">", Ok(None)),
        ("Sub>>Deep.Pas", Ok(None)),
        ("Su", Ok(None)),
        ("Subs", Ok(None)),
    ] {
        assert_eq!(led(&image, path), expected, "{path}");
    }
}

#[test]
fn a_root_that_is_no_file_is_refused() {
    let mut image = small();
    reference::tree_sample::set_root(&mut image, S, 0);
    assert_eq!(led(&image, ""), Err(Refusal::NoFile));
    assert_eq!(listed(&image, 0), Err(Refusal::NoFile));
    let sentence = "refused (6): this block, or the root directory, is no file of the partition";
    assert_eq!(Refusal::NoFile.to_string(), sentence);
}

fn weights(first: &[u8]) -> Rule {
    let mut weights = [0; 26];
    weights[..first.len()].copy_from_slice(first);
    Rule::Weights(weights)
}

#[test]
fn hashes_worked_out_by_hand() {
    // 2 + 65 + 66 = 133 = 4 * 31 + 9.
    assert_eq!(weights(&[1, 1, 1]).hash(b"AB"), Some(9));
    assert_eq!(weights(&[1, 1, 1]).hash(b"ab"), Some(9));
    // 5 * 3 + 2 * 67 + 3 * 49 + 7 * 46 = 618 = 19 * 31 + 29.
    assert_eq!(weights(&[5, 2, 3, 7]).hash(b"c1."), Some(29));
    // 255 * 25 + 25 * 255 * 90 = 580,125 = 18,713 * 31 + 22.
    assert_eq!(weights(&[255; 26]).hash(&[b'z'; 25]), Some(22));
    // One letter of weight 1: the letter's number. Only a to z are taken as capitals.
    let one = weights(&[0, 1]);
    let letters = [(b'a', 3), (b'A', 3), (b'z', 28), (b'`', 3), (b'{', 30), (b'@', 2), (b'[', 29)];
    for (letter, hash) in letters {
        assert_eq!(one.hash(&[letter]), Some(hash), "{letter}");
    }
    assert_eq!(one.hash(&[0xE4]), Some(11)); // 228 = 7 * 31 + 11
    assert_eq!(one.hash(b""), Some(0));
    assert_eq!(one.hash(&[b'a'; 26]), None);
    assert_eq!(Rule::Unknown.hash(b"a"), None);
}

#[test]
fn rules_have_26_bytes_or_none() {
    assert_eq!(Rule::default(), Rule::Unknown);
    assert_eq!(Rule::from_bytes(&[]), Ok(Rule::Unknown));
    assert_eq!(Rule::from_bytes(&[7; 26]), Ok(Rule::Weights([7; 26])));
    for length in [1, 25, 27, 52] {
        assert_eq!(Rule::from_bytes(&vec![7; length]), Err(Refusal::Buffer));
    }
    assert_eq!((Rule::Unknown.bytes(), weights(&[3]).bytes()[0]), (&[][..], 3));
    assert_eq!(weights(&[3]).bytes().len(), 26);
    let sentence =
        "refused (3): the buffer, the hash rule or the rows have a length that the call does not take";
    assert_eq!(Refusal::Buffer.to_string(), sentence);
}

/// An entry counts only in the blocks whose number leaves its hash as remainder of 31; all of them count without a rule.
#[test]
fn an_entry_is_taken_from_the_blocks_its_hash_selects() {
    let rule = weights(&[0, 1]);
    for (name, r, taken) in [
        ("a", 3, true),
        ("A", 3, true),
        ("a", 2, false),
        ("a", 4, false),
        ("a", 34, true),
        ("a", 31, false),
    ] {
        let line = Line { stand: Stand::Block(r), ..Line::new(name.as_bytes(), Names::Node(1)) };
        let image = image(&rule, vec![Node::directory(vec![line]), Node::file(0)]);
        let there = Some(Target::File(block(1)));
        let found = look_up(&image, DRIVE, S, &rule, b"A").expect("a root");
        assert_eq!(found, if taken { there } else { None }, "{name} in block {r}");
        let rows = tree(&image, DRIVE, S, &rule, 9).expect("a root").rows;
        assert_eq!(rows.len(), usize::from(taken), "{name} in block {r}");
        assert_eq!(led(&image, "a"), Ok(there), "without a rule");
    }
}

/// Bit 0 of an entry's first word says that it is valid; the others say nothing. Names have 1 to 25 letters.
#[test]
fn only_valid_entries_are_taken() {
    let line =
        |flags, length, name: &[u8]| Line { flags, length, ..Line::new(name, Names::Node(1)) };
    let longest = [b'n'; 25];
    let lines = vec![
        line(1, 1, b"a"),
        line(0, 1, b"b"),
        line(2, 1, b"c"),
        line(0xFFFF, 1, b"d"),
        line(0xFFFE, 1, b"e"),
        line(1, 0, b"f"),
        line(1, 25, &longest),
        line(1, 26, &longest),
        line(1, 255, b"g"),
    ];
    let image = image(&Rule::Unknown, vec![Node::directory(lines), Node::file(0)]);
    let rows = listed(&image, 100).expect("a tree").rows;
    let names: Vec<&[u8]> = rows.iter().map(|row| &row.name[..]).collect();
    assert_eq!(names, [b"a", b"d", &longest[..]]);
    assert_eq!(led(&image, "D"), Ok(Some(Target::File(block(1)))));
    assert_eq!(led(&image, &"N".repeat(25)), Ok(Some(Target::File(block(1)))));
    for absent in ["b", "c", "e", "f", "g", &"N".repeat(24), &"N".repeat(26)] {
        assert_eq!(led(&image, absent), Ok(None), "{absent}");
    }
}

/// Word 8 of the description is 3 in a directory and nothing else; the root is looked into whatever it has there.
#[test]
fn what_a_directory_is() {
    for sort in [0, 1, 2, 3, 4, 0x0103, 0x0300, 0xFFFF] {
        let root = Node { sort, ..directory(&[("Below", 1)]) };
        let below = Node { sort, ..directory(&[("Leaf", 2)]) };
        let image = image(&Rule::Unknown, vec![root, below, Node::file(0)]);
        let tree = listed(&image, 100).expect("a tree");
        let what = if sort == 3 { What::Directory } else { What::File };
        assert_eq!((tree.rows[0].what, tree.rows[0].target), (what, Some(block(1))));
        assert_eq!(tree.rows.len(), if sort == 3 { 2 } else { 1 }, "word 8 is {sort}");
        let leaf = (sort == 3).then_some(Target::File(block(2)));
        assert_eq!(led(&image, "Below>Leaf"), Ok(leaf), "word 8 is {sort}");
    }
}

/// Of two entries with the same name the one in the lower block counts, and in one block the first.
#[test]
fn the_first_of_equal_names_is_found_and_both_are_listed() {
    let line = |name: &[u8], node, r| Line {
        stand: Stand::Block(r),
        ..Line::new(name, Names::Node(node))
    };
    let root = Node::directory(vec![line(b"X", 1, 1), line(b"x", 2, 0), line(b"X", 3, 0)]);
    let image = image(&Rule::Unknown, vec![root, Node::file(0), Node::file(0), Node::file(0)]);
    assert_eq!(led(&image, "X"), Ok(Some(Target::File(block(2)))));
    let targets: Vec<Option<u32>> =
        listed(&image, 9).expect("a tree").rows.iter().map(|row| row.target).collect();
    assert_eq!(targets, [Some(block(2)), Some(block(3)), Some(block(1))]);
}

/// A `>` in a name is listed as it stands, and no path leads there.
#[test]
fn a_joint_in_a_name() {
    let image = image(&Rule::Unknown, vec![directory(&[("a>b", 1)]), Node::file(0)]);
    assert_eq!(listed(&image, 9).expect("a tree").rows[0].path, [b'a', JOINT, b'b']);
    assert_eq!(led(&image, "a>b"), Ok(None));
}

#[test]
fn the_image_stays_as_it_is() {
    for original in [small(), ladder(9), ladder(10)] {
        let image = original.clone();
        for path in ["", "Sub>Gone", "nothing", "D>D>D>D>D>D>D>D>D>D"] {
            let _ = led(&image, path);
        }
        for most in [0, 1, 100] {
            let _ = listed(&image, most);
        }
        assert!(image == original);
    }
}
