//! `tapermoss tree`: what it prints of trees that the reference has planted, under every rule, and why it is refused.

mod common;

use common::planted::{dangling, escaped, escaped_name, letters, Entry, Planted};
use common::{
    fails, hex, misused, object, printed, set_bytes, set_word, tapermoss, Folder, FLOPPY,
};
use reference::random_tree::random_tree;
use reference::sample::{named, scattered, Rng};
use reference::tree_sample::{set_root, Line, Names, Node, Tree};
use serde_json::{json, Value};

/// An entry as JSON has it.
fn as_json(entry: &Entry) -> Value {
    let path = entry.no_path.is_none().then_some(&entry.joined);
    json!({
        "lbn": entry.lbn, "level": entry.level, "what": entry.what,
        "held": entry.held.map(|(held, _)| held), "held_block": entry.held.and_then(|it| it.1),
        "name": escaped_name(&entry.name), "name_bytes": hex(&entry.name),
        "path": path.map(|path| escaped(path)), "path_bytes": path.map(|path| hex(path)),
        "no_path": entry.no_path,
    })
}

#[test]
fn a_tree_is_printed_depth_first() {
    let folder = Folder::new();
    let image = folder.put("disk", &letters().image);
    let text = "\
the root directory is file 7

   LBN  name
     8  letters>
     9    first.text
     -    Old  (dangling: it holds nil)
    10  House.drawing
     -  lost.text  (dangling: it holds nil)
";
    assert_eq!(printed(&["tree", &image]), text);
    let found = object(&["tree", &image]);
    assert_eq!((&found["outcome"], &found["root"]), (&json!("done"), &json!(7)));
    assert_eq!(found["complete"], true);
    assert_eq!(
        found["entries"][1],
        json!({
            "lbn": 9, "level": 2, "what": "file", "held": null, "held_block": null,
            "name": "first.text", "name_bytes": "66697273742e74657874",
            "path": "letters>first.text",
            "path_bytes": "6c6574746572733e66697273742e74657874", "no_path": null,
        })
    );
    assert_eq!(found["entries"][4]["lbn"], Value::Null);
    assert_eq!(found["entries"][4]["what"], "dangling");
}

#[test]
fn names_are_escaped_and_kept_exactly() {
    let names: [&[u8]; 3] = [b"a\\\x07\xff", b"\x1b[31m", b"\n\r\xe2\x80\xae"];
    let lines = names.map(|name| Line::new(name, Names::Node(1))).to_vec();
    let nodes = vec![Node::directory(lines), Node::file(1)];
    let folder = Folder::new();
    let image = folder.put("disk", &Planted::of(Tree { rule: Vec::new(), nodes }).image);
    let text = printed(&["tree", &image]);
    let shown = "     8  a\\\\\\x07\\xff\n     8  \\x1b[31m\n     8  \\x0a\\x0d\\xe2\\x80\\xae\n";
    assert!(text.ends_with(shown), "{text}");
    let found = object(&["tree", &image]);
    for (entry, name) in found["entries"].as_array().expect("a list").iter().zip(names) {
        assert_eq!(entry["name_bytes"], hex(name));
        assert_eq!(entry["path_bytes"], hex(name));
    }
}

#[test]
fn random_trees_are_those_of_their_descriptions() {
    let (mut rng, mut seen) = (Rng::new(20), [0; 3]);
    for _ in 0..60 {
        let levels = 8 + rng.below(3);
        let planted = Planted::of(random_tree(&mut rng, levels));
        let folder = Folder::new();
        let image = folder.put("disk", &planted.image);
        let rule = planted.rule();
        let rule: Vec<&str> = rule.iter().flat_map(|rule| ["--rule", rule]).collect();
        for rows in [1, 1 + rng.below(40) as usize, 2_000] {
            let found =
                object(&[&["tree", &image, "--rows", &rows.to_string()], &rule[..]].concat());
            match planted.entries(rows) {
                Ok((entries, complete)) => {
                    let expected: Vec<Value> = entries.iter().map(as_json).collect();
                    assert_eq!(found["entries"], json!(expected));
                    assert_eq!(found["complete"], complete);
                    seen[usize::from(complete)] += 1;
                }
                Err(block) => {
                    assert_eq!((&found["number"], &found["block"]), (&json!(11), &json!(block)));
                    seen[2] += 1;
                }
            }
        }
    }
    assert!(seen.iter().all(|&times| times > 5), "{seen:?}");
}

#[test]
fn a_root_that_is_no_file_is_refused_by_6_and_said_why() {
    let lda = |block| reference::lbn_to_lda(FLOPPY, block).a;
    let mut malformed = letters().image;
    set_word(&mut malformed, 7, 249, 99);
    let with_root = |words| {
        let mut image = letters().image;
        set_root(&mut image, 6, words);
        image
    };
    let images = [
        (with_root(0), "is nil"),
        (with_root(lda(400)), "names block 400, which is no file"),
        (with_root(lda(6)), "names block 6, which is no file"),
        (with_root(lda(3)), "names block 3, which is no file"),
        // Reserved bits are ignored in an address; alone they are neither nil nor one.
        (with_root(lda(400) | 5), "names block 400, which is no file"),
        (with_root(0o301), "is 000301 000000 in octal, which is no block's LDA"),
        // Block 7 is 003400 O; the high word of a floppy's LDA has bits 13 to 15, and here bit 15 is clear.
        (with_root(lda(7) ^ 1 << 31), "is 003400 060000 in octal, which is no block's LDA"),
        (malformed, "names block 7, a malformed file block"),
    ];
    for (bytes, told) in images {
        let folder = Folder::new();
        let image = folder.put("disk", &bytes);
        let sentence = format!(
            "refused (6): the partition at block 6 has no root directory: its RootDirectoryID {told}"
        );
        fails(&["tree", &image], &sentence);
        let found = object(&["tree", &image]);
        assert_eq!((&found["number"], &found["sentence"]), (&json!(6), &json!(sentence)));
    }
}

#[test]
fn a_root_need_not_say_that_it_is_a_directory() {
    let mut image = letters().image;
    let mut words = named(b"root");
    words[16] = 7;
    assert_eq!(reference::describe(&mut image, FLOPPY, 6, 7, &words, u32::MAX).made, 1);
    let folder = Folder::new();
    let changed = folder.put("changed", &image);
    let image = folder.put("disk", &letters().image);
    assert_eq!(printed(&["tree", &changed]), printed(&["tree", &image]));
}

#[test]
fn what_names_a_malformed_or_a_destroyed_file_is_dangling() {
    let folder = Folder::new();
    let mut malformed = letters().image;
    set_word(&mut malformed, 8, 249, 99);
    let text = printed(&["tree", &folder.put("malformed", &malformed)]);
    assert!(
        text.contains(
            "     -  letters  (dangling: it names block 8, a malformed file block)\n    10"
        ),
        "{text}"
    );
    let image = folder.put("disk", &letters().image);
    printed(&["destroy", &image, "--file", "9", "--in-place"]);
    let text = printed(&["tree", &image]);
    assert!(
        text.contains("     -    first.text  (dangling: it names block 9, which is no file)\n"),
        "{text}"
    );
}

#[test]
fn the_partition_is_the_only_one_or_the_one_that_is_named() {
    let folder = Folder::new();
    let mut bytes = letters().image;
    let inner = scattered(FLOPPY, 432, 300, 310, &[1], 1);
    bytes[528 * 300..528 * 311].copy_from_slice(&inner[528 * 300..528 * 311]);
    let image = folder.put("disk", &bytes);
    let told = misused(&["tree", &image]);
    let sentence = "the image has 2 partitions, at blocks 6, 300: name one with --partition";
    assert_eq!(told, format!("tapermoss: {sentence}\n"));
    assert!(printed(&["tree", &image, "--partition", "6"]).contains("first.text"));
    fails(
        &["tree", &image, "--partition", "300"],
        "refused (6): the partition at block 300 has no root directory: its RootDirectoryID is nil",
    );
    fails(
        &["tree", &image, "--partition", "7"],
        "refused (2): no good partition starts at block 7",
    );
    fails(&["tree", &folder.put("empty", b"")], "refused (1): the image is empty");
    let told = misused(&["tree", &image, "--partition", "6", "--drive", "shugart24"]);
    let sentence = "the image has 432 blocks, as drive 3 (floppy, single-sided) has, and not drive 1 (Shugart 24 MB); --force-drive insists on it";
    assert_eq!(told, format!("tapermoss: {sentence}\n"));
}

#[test]
fn a_tree_asks_for_a_good_partition_and_not_for_a_sound_one() {
    let folder = Folder::new();
    let image = folder.put("disk", &letters().image);
    let mut unsound = letters().image;
    set_bytes(&mut unsound, 6, 2, &[0; 4]);
    let unsound = folder.put("unsound", &unsound);
    assert_eq!(tapermoss(&["check", &unsound]).status.code(), Some(1));
    assert_eq!(printed(&["tree", &unsound]), printed(&["tree", &image]));
    let lonely = vec![Node::directory(vec![dangling("x")])];
    let lonely = folder.put("lonely", &Planted::of(Tree { rule: Vec::new(), nodes: lonely }).image);
    assert!(printed(&["tree", &lonely]).ends_with("     -  x  (dangling: it holds nil)\n"));
}
