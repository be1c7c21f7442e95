//! The rows of a tree through the typed calls: their paths, how many there are, and the nine levels that are looked into.

mod common;
use common::{block, directory, image, ladder, led, listed, small};
use perq::{Refusal, Rule, Target, What};
use reference::tree_sample::{Line, Names, Node, Stand};

#[test]
fn rows_of_a_small_tree() {
    let tree = listed(&small(), 1_000).expect("a tree");
    assert!(tree.complete);
    let row = |target: Option<u32>, level, what, name: &str, path: &str| perq::Row {
        target: target.map(block),
        level,
        what,
        name: name.as_bytes().to_vec(),
        path: path.as_bytes().to_vec(),
    };
    assert_eq!(
        tree.rows,
        [
            row(Some(2), 1, What::File, "Notes", "Notes"),
            row(Some(1), 1, What::Directory, "Sub", "Sub"),
            row(Some(3), 2, What::File, "Deep.Pas", "Sub>Deep.Pas"),
            row(None, 2, What::Dangling, "Gone", "Sub>Gone"),
            row(Some(3), 1, What::File, "Last", "Last"),
        ]
    );
}

#[test]
fn a_tree_is_complete_if_it_has_no_more_rows_than_were_asked_for() {
    let image = small();
    let all = listed(&image, 5).expect("a tree").rows;
    for most in 0..8 {
        let tree = listed(&image, most).expect("a tree");
        assert_eq!(tree.complete, most >= 5, "{most} rows");
        assert_eq!(tree.rows, all[..most.min(5)]);
    }
}

/// 130 files, 16 in a block: rows are asked for by 64, 128 and then more.
#[test]
fn long_trees_come_whole_however_many_rows_are_asked_for() {
    let line = |i: u32| {
        let name = format!("File{i}");
        Line { stand: Stand::Block(i / 16), ..Line::new(name.as_bytes(), Names::Node(1)) }
    };
    let root = Node::directory((0..130).map(line).collect());
    let image = image(&Rule::Unknown, vec![root, Node::file(1)]);
    for most in [0, 1, 63, 64, 65, 127, 128, 129, 130, 131, 5_000] {
        let tree = listed(&image, most).expect("a tree");
        let names: Vec<String> =
            tree.rows.iter().map(|row| String::from_utf8_lossy(&row.path).into_owned()).collect();
        let expected: Vec<String> = (0..most.min(130)).map(|i| format!("File{i}")).collect();
        assert_eq!((names, tree.complete), (expected, most >= 130));
    }
}

#[test]
fn nine_levels_are_looked_into() {
    let image = ladder(9);
    assert_eq!(led(&image, "D>D>D>D>D>D>D>D>Leaf"), Ok(Some(Target::File(block(9)))));
    let tree = listed(&image, 100).expect("a tree");
    let levels: Vec<u32> = tree.rows.iter().map(|row| row.level).collect();
    assert_eq!(levels, [1, 2, 3, 4, 5, 6, 7, 8, 9]);
    assert_eq!(tree.rows[8].path, b"D>D>D>D>D>D>D>D>Leaf");
}

#[test]
fn the_tenth_level_may_end_a_path_but_is_not_looked_into() {
    let image = ladder(10);
    let deep = Refusal::TooDeep { block: block(9) };
    assert_eq!(led(&image, "D>D>D>D>D>D>D>D>D"), Ok(Some(Target::File(block(9)))));
    assert_eq!(led(&image, "D>D>D>D>D>D>D>D>D>Leaf"), Err(deep));
    assert_eq!(led(&image, "D>D>D>D>D>D>D>D>D>x"), Err(deep));
    assert_eq!(led(&image, "D>D>D>D>D>D>D>D>x>x>x"), Ok(None));
    assert_eq!(listed(&image, 100), Err(deep));
    assert_eq!(listed(&image, 9), Err(deep));
    let stopped = listed(&image, 8).expect("the walk stops before it");
    assert_eq!((stopped.rows.len(), stopped.complete), (8, false));
    assert_eq!(
        deep.to_string(),
        "refused (11): the directory at block 15 is of the tenth level, and only nine are looked into"
    );
}

/// 16 lines that all name their own directory: every row is one level below the one before, so the ninth leads to a tenth
/// level. A walk that passed over what is deeper would have 16 to the ninth rows of the ninth level alone.
#[test]
fn a_directory_full_of_itself_is_answered_at_once() {
    let names: Vec<String> = (0..16).map(|i| format!("Me{i}")).collect();
    let lines: Vec<(&str, usize)> = names.iter().map(|name| (name.as_str(), 0)).collect();
    let image = image(&Rule::Unknown, vec![directory(&lines)]);
    let deep = Refusal::TooDeep { block: block(0) };
    for most in [9, 10, 1_000_000] {
        assert_eq!(listed(&image, most), Err(deep));
    }
    let stopped = listed(&image, 8).expect("the walk stops before it");
    assert!(!stopped.complete);
    assert_eq!(stopped.rows[7].path, b"Me0>Me0>Me0>Me0>Me0>Me0>Me0>Me0");
    assert_eq!(led(&image, "Me3>me14>ME0"), Ok(Some(Target::File(block(0)))));
    assert_eq!(led(&image, "Me1>Me1>Me1>Me1>Me1>Me1>Me1>Me1>Me1>Me1"), Err(deep));
}

/// Nine levels of 16 lines that all name the next directory, and a file in the last: no tenth level, but 16 to the ninth rows
/// of the ninth level alone, of which only those asked for are walked.
#[test]
fn more_entries_than_fit_any_memory_stop_where_the_rows_end() {
    let names: Vec<String> = (0..16).map(|i| format!("N{i}")).collect();
    let all_to = |node| {
        let lines: Vec<(&str, usize)> = names.iter().map(|name| (name.as_str(), node)).collect();
        directory(&lines)
    };
    let mut nodes: Vec<Node> = (1..10).map(all_to).collect();
    nodes.push(Node::file(0));
    let tree = listed(&image(&Rule::Unknown, nodes), 1_000).expect("a tree");
    assert_eq!((tree.rows.len(), tree.complete), (1_000, false));
    // Eight directories down, their 16 files, then up by one and down again.
    assert_eq!(tree.rows[23].path, b"N0>N0>N0>N0>N0>N0>N0>N0>N15");
    assert_eq!(tree.rows[24].path, b"N0>N0>N0>N0>N0>N0>N0>N1");
    assert_eq!(tree.rows[25].path, b"N0>N0>N0>N0>N0>N0>N0>N1>N0");
}
