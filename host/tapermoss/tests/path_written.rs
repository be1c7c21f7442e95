//! How a path is written on the command line: as `tree` prints it, empty for the root where nothing is changed, and with any
//! first letter.

mod common;

use common::planted::{letters, line, Planted};
use common::{fails_with, misused, printed, printed_bytes, tool, Folder};
use reference::tree_sample::{Line, Names, Node, Tree};
use std::ffi::OsStr;
use std::os::unix::ffi::OsStrExt;

#[test]
fn the_empty_path_is_the_root_directory() {
    let folder = Folder::new();
    let image = folder.put("disk", &letters().image);
    let bytes = printed_bytes(&["cat", &image, "--path", ""]);
    assert!(bytes == printed_bytes(&["cat", &image, "--file", "7"]));
    // The name of the first entry stands after its length, in byte 7.
    assert_eq!(&bytes[6..14], b"\x07letters");
}

#[test]
fn the_empty_path_changes_nothing() {
    let folder = Folder::new();
    let image = folder.put("disk", &letters().image);
    let one = folder.put("one", &[5; 512]);
    let commands: [&[&str]; 4] = [
        &["write", "--from", &one],
        &["describe", "--name", "x"],
        &["destroy"],
        &["destroy", "--in-place"],
    ];
    for command in commands {
        let sentence =
            "the empty path is the root directory; to change that, name it with --file LBN";
        fails_with(2, &[command, &[&image, "--path", ""]].concat(), sentence);
        fails_with(2, &[command, &[&folder.text("none"), "--path="]].concat(), sentence);
    }
    assert_eq!(folder.names(), ["disk", "one"]);
    assert!(folder.read("disk") == letters().image);
    assert!(printed(&["destroy", &image, "--file", "7"]).starts_with("file 7 destroyed"));
}

#[test]
fn a_path_may_begin_with_a_stroke() {
    let nodes = vec![Node::directory(vec![line("-x", 1), line("--json", 1)]), Node::file(2)];
    let folder = Folder::new();
    let image = folder.put("disk", &Planted::of(Tree { rule: Vec::new(), nodes }).image);
    for path in ["-x", "--json"] {
        assert_eq!(printed_bytes(&["cat", &image, "--path", path]).len(), 512 * 2, "{path}");
    }
    fails_with(
        7,
        &["cat", &image, "--path", "-y"],
        "the path '-y' is not there: the root directory (block 7) has no entry '-y'",
    );
}

#[test]
fn a_path_is_written_as_tree_prints_it() {
    let names: [&[u8]; 4] = [b"a\\\x07\xff", b"\x1b[31m", b"\n\xe2\x80\xae", b"\\x41"];
    let lines = (1..).zip(names).map(|(i, name)| Line::new(name, Names::Node(i))).collect();
    let mut nodes = vec![Node::directory(lines)];
    nodes.extend((1..=4).map(Node::file));
    let folder = Folder::new();
    let image = folder.put("disk", &Planted::of(Tree { rule: Vec::new(), nodes }).image);
    let tree = printed(&["tree", &image]);
    let shown: Vec<&str> = tree.lines().skip(3).map(|line| &line[8..]).collect();
    for (blocks, path) in (1..).zip(shown) {
        assert_eq!(printed_bytes(&["cat", &image, "--path", path]).len(), 512 * blocks, "{path}");
    }
    let raw = tool(&["cat", &image, "--path"]).arg(OsStr::from_bytes(names[2])).output();
    assert_eq!(raw.expect("the tool runs").stdout.len(), 512 * 3);
    for wrong in ["a\\", "\\q", "\\x4", "\\xg0", "\\X41"] {
        let told = misused(&["cat", &image, "--path", wrong]);
        let shown = wrong.replace('\\', "\\\\");
        let sentence = format!("in a path a backslash is written \\\\ and a byte \\x and two digits, as `tree` prints them; '{shown}' has it otherwise");
        assert_eq!(told, format!("tapermoss: {sentence}\n"));
    }
}
