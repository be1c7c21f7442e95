//! How many entries of a tree `tapermoss tree` shows, what it says of those that it does not, and how deep it looks.

mod common;

use common::planted::{chain, letters, line, Planted};
use common::{fails, misused, object, printed, Folder};
use reference::tree_sample::{Line, Node, Tree};
use serde_json::{json, Value};

#[test]
fn the_rows_that_are_asked_for_and_no_more() {
    let folder = Folder::new();
    let image = folder.put("disk", &letters().image);
    let text = |rows: u32| printed(&["tree", &image, "--rows", &rows.to_string()]);
    let end = |rows| {
        format!("\nthe tree goes on: this is what --rows {rows} shows, and a larger number shows more\n")
    };
    assert!(text(1).ends_with(&format!("     8  letters>\n{}", end(1))), "{}", text(1));
    assert!(text(4).ends_with(&format!("    10  House.drawing\n{}", end(4))), "{}", text(4));
    assert_eq!(text(5), printed(&["tree", &image]));
    assert_eq!(text(6), printed(&["tree", &image]));
    assert_eq!(object(&["tree", &image, "--rows", "4"])["complete"], false);
    for wrong in ["0", "x", "1048577", "4294967296"] {
        let told = misused(&["tree", &image, "--rows", wrong]);
        assert!(told.contains(&format!("'{wrong}'")), "{told}");
    }
    assert!(misused(&["tree", &image, "--rows", "1048577"]).contains("1..=1048576"));
    assert_eq!(text(1_048_576), printed(&["tree", &image]));
}

#[test]
fn a_large_tree_ends_at_the_rows_by_default_and_says_so() {
    // Fifteen entries that name the next directory, six deep: 15 + 15^2 + .. + 15^6 = 12,204,240 entries.
    let lines = |next: usize| (0..15).map(|i| line(&format!("D{i}"), next)).collect();
    let mut nodes: Vec<Node> = (1..=6).map(|next| Node::directory(lines(next))).collect();
    nodes.push(Node::file(0));
    let folder = Folder::new();
    let image = folder.put("disk", &Planted::of(Tree { rule: Vec::new(), nodes }).image);
    let text = printed(&["tree", &image]);
    assert!(text.ends_with(
        "\nthe tree goes on: this is what --rows 65536 shows, and a larger number shows more\n"
    ));
    assert_eq!(text.lines().count(), 3 + 65_536 + 2);
    let text = printed(&["tree", &image, "--rows", "65537"]);
    assert_eq!(text.lines().count(), 3 + 65_537 + 2);
    let text = printed(&["tree", &image, "--rows", "1048576"]);
    assert!(text.ends_with(
        "\nthe tree goes on: this is what --rows 1048576 shows, the largest number that it takes\n"
    ));
    assert_eq!(text.lines().count(), 3 + 1_048_576 + 2);
}

#[test]
fn a_tenth_level_is_refused_by_11_and_what_is_before_it_can_be_shown() {
    let folder = Folder::new();
    let nine = folder.put("nine", &chain(9).image);
    assert_eq!(object(&["tree", &nine])["entries"].as_array().expect("a list").len(), 8);
    let ten = folder.put("ten", &chain(10).image);
    fails(
        &["tree", &ten],
        "refused (11): the directory at block 16 is of the tenth level, and only nine are looked into; --rows 8 stops before it",
    );
    let found = object(&["tree", &ten]);
    assert_eq!((&found["number"], &found["block"]), (&json!(11), &json!(16)));
    let text = printed(&["tree", &ten, "--rows", "8"]);
    let end = "    15                D>\n\nthe tree goes on: this is what --rows 8 shows; with more it is refused (11): the directory at block 16 is of the tenth level, and only nine are looked into\n";
    assert!(text.ends_with(end), "{text}");
    let text = printed(&["tree", &ten, "--rows", "7"]);
    assert!(text.ends_with(
        "\nthe tree goes on: this is what --rows 7 shows, and a larger number shows more\n"
    ));
    assert_eq!(object(&["tree", &ten, "--rows", "9"])["number"], 11);
}

#[test]
fn what_can_be_shown_of_a_tree_that_is_too_deep_is_the_most_that_can() {
    // A directory with so many files in it before the entry that names it itself.
    for files in [0, 1, 3, 14] {
        let mut lines: Vec<Line> = (0..files).map(|i| line(&format!("F{i}"), 1)).collect();
        lines.push(line("again", 0));
        let nodes = vec![Node::directory(lines), Node::file(0)];
        let planted = Planted::of(Tree { rule: Vec::new(), nodes });
        let folder = Folder::new();
        let image = folder.put("disk", &planted.image);
        // Nine levels of files, and the entries of eight directories below the root before the ninth is met.
        let most = 9 * files + 8;
        fails(
            &["tree", &image],
            &format!("refused (11): the directory at block 7 is of the tenth level, and only nine are looked into; --rows {most} stops before it"),
        );
        let found = object(&["tree", &image, "--rows", &most.to_string()]);
        assert_eq!(found["entries"].as_array().expect("a list").len(), most);
    }
}

#[test]
fn of_a_large_tree_that_is_too_deep_half_can_be_shown_at_least() {
    // The root has a directory of fifteen directories of fifteen files, 241 entries, and itself: seven levels of it fit, and
    // of the eighth the first entry. The next one is a directory of the tenth level.
    let fifteen = |to: usize| (0..15).map(|i| line(&format!("N{i}"), to)).collect();
    let root = vec![line("D", 1), line("again", 0)];
    let nodes = vec![
        Node::directory(root),
        Node::directory(fifteen(2)),
        Node::directory(fifteen(3)),
        Node::file(0),
    ];
    let before = 7 * (1 + 15 + 15 * 15 + 1) + 1;
    let folder = Folder::new();
    let image = folder.put("disk", &Planted::of(Tree { rule: Vec::new(), nodes }).image);
    let found = object(&["tree", &image]);
    assert_eq!((&found["number"], &found["block"]), (&json!(11), &json!(9)));
    let sentence = found["sentence"].as_str().expect("a sentence");
    let (_, rows) = sentence.split_once("--rows ").expect("how many");
    let rows: u32 = rows.split(' ').next().and_then(|rows| rows.parse().ok()).expect("a number");
    assert!(rows <= before && 2 * rows >= before, "{sentence}");
    for (rows, number) in [(rows, Value::Null), (before, Value::Null), (before + 1, json!(11))] {
        assert_eq!(object(&["tree", &image, "--rows", &rows.to_string()])["number"], number);
    }
}
