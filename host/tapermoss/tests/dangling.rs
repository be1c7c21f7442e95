//! Dangling entries: what is said of each, by what it holds where the address of a file should be.

mod common;

use common::planted::{line, Planted};
use common::{fails_with, object, printed, set_word, Folder, FLOPPY};
use reference::tree_sample::{Line, Names, Node, Tree};
use serde_json::{json, Value};

/// How `tree` shows each dangling entry of the root, its words and block in JSON, and what is said of a path to it.
const ENTRIES: [(&str, &str, &str, Option<u32>); 10] = [
    ("nil", "it holds nil", "nil", None),
    (
        "bits alone",
        "it holds no address of a block of the partition",
        "no block of the partition",
        None,
    ),
    (
        "smudged",
        "it holds no address of a block of the partition",
        "no block of the partition",
        None,
    ),
    (
        "before",
        "it holds no address of a block of the partition",
        "no block of the partition",
        None,
    ),
    (
        "outside",
        "it holds no address of a block of the partition",
        "no block of the partition",
        None,
    ),
    ("own", "it names block 6, which is no file", "no file", Some(6)),
    ("last", "it names block 400, which is no file", "no file", Some(400)),
    ("with bits", "it names block 399, which is no file", "no file", Some(399)),
    ("torn", "it names block 8, a malformed file block", "malformed file block", Some(8)),
    ("folder", "it names block 9, a malformed file block", "malformed file block", Some(9)),
];

/// An image with these entries and a good one, `fine`; its partition ends with block 400.
fn image() -> Vec<u8> {
    let lda = |block| reference::lbn_to_lda(FLOPPY, block).a;
    let held = [
        Names::Words(0),
        Names::Words(0xC1),
        Names::Smudged(3),
        Names::Words(lda(5)),
        Names::Words(lda(401)),
        Names::Block(0),
        Names::Words(lda(400)),
        Names::Words(lda(399) | 0xC1),
        Names::Node(1),
        Names::Node(2),
    ];
    let lines = ENTRIES.iter().zip(held).map(|(entry, names)| Line::new(entry.0.as_bytes(), names));
    let mut lines: Vec<Line> = lines.collect();
    // One that is not taken comes first, and one that is between them, so that the entries are not counted by their places.
    lines.insert(0, Line { flags: 0, ..line("gone", 3) });
    lines.insert(4, line("fine", 3));
    let nodes = vec![
        Node::directory(lines),
        Node::file(1),
        Node::directory(vec![line("inner", 3)]),
        Node::file(1),
    ];
    let tree = Tree { rule: Vec::new(), nodes };
    let mut image = reference::tree_sample::plant(&tree, FLOPPY, 432, 6, 400);
    [8, 9].into_iter().for_each(|block| set_word(&mut image, block, 249, 99));
    image
}

#[test]
fn a_dangling_entry_says_what_it_holds() {
    let folder = Folder::new();
    let image = folder.put("disk", &image());
    let text = printed(&["tree", &image]);
    let found = object(&["tree", &image]);
    let entries = found["entries"].as_array().expect("a list");
    assert_eq!(entries.len(), 11);
    for (name, words, word, block) in ENTRIES {
        assert!(text.contains(&format!("     -  {name}  (dangling: {words})\n")), "{name}: {text}");
        let entry = entries.iter().find(|entry| entry["name"] == name).expect("it is there");
        assert_eq!((&entry["what"], &entry["lbn"]), (&json!("dangling"), &Value::Null));
        assert_eq!((&entry["held"], &entry["held_block"]), (&json!(word), &json!(block)));
    }
    let fine = entries.iter().find(|entry| entry["name"] == "fine").expect("it is there");
    assert_eq!(
        (&fine["lbn"], &fine["held"], &fine["held_block"]),
        (&json!(10), &json!(null), &json!(null))
    );
}

#[test]
fn a_path_to_a_dangling_entry_says_so_too() {
    let folder = Folder::new();
    let image = folder.put("disk", &image());
    for (name, words, _, block) in ENTRIES {
        let more = match (words.ends_with("malformed file block"), block) {
            (true, Some(block)) => format!("; --file {block} says more"),
            _ => String::new(),
        };
        let capitals = name.to_ascii_uppercase();
        let dangling = format!("is a dangling entry: {words}{more}");
        for command in [&["cat"][..], &["show", "--block", "0"], &["destroy"]] {
            let line = [command, &[&image, "--path", &capitals]].concat();
            fails_with(7, &line, &format!("the path '{capitals}' {dangling}"));
        }
        let below = format!("{name}>inner");
        let sentence = format!("the path '{below}' is not there: '{name}' {dangling}");
        fails_with(7, &["cat", &image, "--path", &below], &sentence);
    }
    common::fails(
        &["cat", &image, "--file", "8"],
        "refused (4): block 8 is a malformed file block",
    );
}

#[test]
fn the_entry_that_counts_is_the_one_that_the_rule_selects() {
    // The length is the hash: an `old` in block 1 is not selected, and holds another address than the one in block 3.
    let mut rule = vec![0; 26];
    rule[0] = 1;
    let stand = reference::tree_sample::Stand::Block(1);
    let lines = vec![
        Line { stand, ..Line::new(b"old", Names::Words(0)) },
        Line::new(b"old", Names::Block(394)),
    ];
    let planted = Planted::of(Tree { rule, nodes: vec![Node::directory(lines)] });
    let folder = Folder::new();
    let image = folder.put("disk", &planted.image);
    let rule = planted.rule().expect("it is known");
    fails_with(
        7,
        &["cat", &image, "--path", "old"],
        "the path 'old' is a dangling entry: it holds nil",
    );
    fails_with(
        7,
        &["cat", &image, "--path", "old", "--rule", &rule],
        "the path 'old' is a dangling entry: it names block 400, which is no file",
    );
    let text = printed(&["tree", &image, "--rule", &rule]);
    assert!(
        text.contains("\n     -  old  (dangling: it names block 400, which is no file)\n"),
        "{text}"
    );
}
