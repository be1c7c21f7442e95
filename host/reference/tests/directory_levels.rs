//! The rows of tree: their order, how many fit, and the nine levels that are looked into. Every
//! expectation is worked by hand.

mod common;
use common::directories::*;
use common::*;
use reference::tree_sample::{Line, Names, Node};

#[test]
fn rows_none_some_and_all() {
    // A (file), B (directory: C, D (directory: E), F), G dangling, invalid entries behind.
    let invalid = Line { flags: 2, ..line("H", 1) };
    let nodes = vec![
        Node::directory(vec![
            line("A", 1),
            line("Bb", 2),
            Line::new(b"G", Names::Words(0)),
            invalid.clone(),
        ]),
        Node::file(1),
        Node::directory(vec![line("C", 1), invalid, line("D", 3), line("F", 1)]),
        Node::directory(vec![line("E", 1)]),
    ];
    let image = planted(&ZERO, nodes);
    let all = [
        row(6, 1, 0, "A"),
        row(7, 1, 1, "Bb"),
        row(6, 2, 0, "C"),
        row(8, 2, 1, "D"),
        row(6, 3, 0, "E"),
        row(6, 2, 0, "F"),
        row(0, 1, 2, "G"),
    ];
    for room in 0..=9 {
        let filled = room.min(7);
        let answer = done(filled as u32, u32::from(room < 7));
        assert_eq!(rows(&image, &ZERO, room), (answer, all[..filled].to_vec()));
    }
}

#[test]
fn what_is_named_twice_has_rows_each_time() {
    let nodes = vec![
        Node::directory(vec![line("A", 1), line("B", 1), line("A", 1), line("f", 2), line("F", 2)]),
        Node::directory(vec![line("X", 2)]),
        Node::file(0),
    ];
    let image = planted(&ZERO, nodes);
    let filled = vec![
        row(6, 1, 1, "A"),
        row(7, 2, 0, "X"),
        row(6, 1, 1, "B"),
        row(7, 2, 0, "X"),
        row(6, 1, 1, "A"),
        row(7, 2, 0, "X"),
        row(7, 1, 0, "f"),
        row(7, 1, 0, "F"),
    ];
    assert_eq!(rows(&image, &ZERO, 20), (done(8, 0), filled));
}

#[test]
fn nine_levels_are_walked() {
    let mut nodes = chain(9, vec![line("F", 9), Line::new(b"N", Names::Block(0))]);
    nodes.push(Node::file(0));
    let image = planted(&ZERO, nodes);
    let mut filled: Vec<_> = (1..=8).map(|level| row(5 + level, level, 1, "D")).collect();
    filled.extend([row(14, 9, 0, "F"), row(0, 9, 2, "N")]);
    assert_eq!(rows(&image, &ZERO, 10), (done(10, 0), filled));
    assert_eq!(find(&image, &ZERO, &down(8)), done(13, 0));
    assert_eq!(find(&image, &ZERO, &(down(8) + ">F")), done(14, 0));
    assert_eq!(find(&image, &ZERO, &(down(8) + ">N")), done(0, 1));
    // What goes on there is no directory, so no tenth level is met.
    assert_eq!(find(&image, &ZERO, &(down(8) + ">F>F")), absent());
    assert_eq!(find(&image, &ZERO, &(down(8) + ">N>F>F")), absent());
    assert_eq!(find(&image, &ZERO, &down(9)), absent());
    assert_eq!(find(&image, &ZERO, &down(30)), absent());
}

#[test]
fn the_tenth_level_ends_a_path_and_is_not_looked_into() {
    // The directory of the tenth level is node 9 at 14; with entries or without.
    for last in [vec![], vec![line("D", 0)]] {
        let image = planted(&ZERO, chain(10, last));
        assert_eq!(find(&image, &ZERO, &down(9)), done(14, 0));
        for rest in [">D", ">X", ">D>D>D", ">", ">>", ">X>"] {
            assert_eq!(find(&image, &ZERO, &(down(9) + rest)), deep(14));
        }
        // What is decided before the tenth level stays so.
        assert_eq!(find(&image, &ZERO, &(down(8) + ">X>D>D")), absent());
        assert_eq!(find(&image, &ZERO, &(down(8) + ">>D")), absent());
        assert_eq!(find(&image, &ZERO, &("X>".to_string() + &down(20))), absent());
        for room in 0..=8 {
            let (answer, filled) = rows(&image, &ZERO, room);
            assert_eq!((answer, filled.len()), (done(room as u32, 1), room));
        }
        for room in [9, 10, 100] {
            assert_eq!(rows(&image, &ZERO, room), (deep(14), vec![]));
        }
    }
}

#[test]
fn a_directory_is_of_the_level_where_it_is_met() {
    // Node 9, on the tenth level of the chain, is also in the root, before or behind "D".
    let mut nodes = chain(10, vec![line("F", 10)]);
    nodes.push(Node::file(0));
    nodes[0].lines.push(line("S", 9));
    let image = planted(&ZERO, nodes.clone());
    assert_eq!(find(&image, &ZERO, "S>F"), done(15, 0));
    assert_eq!(find(&image, &ZERO, &(down(9) + ">F")), deep(14));
    assert_eq!(rows(&image, &ZERO, 8).0, done(8, 1));
    assert_eq!(rows(&image, &ZERO, 9).0, deep(14));
    nodes[0].lines.swap(0, 1);
    let image = planted(&ZERO, nodes);
    let (answer, filled) = rows(&image, &ZERO, 10);
    assert_eq!(answer, done(10, 1));
    let start = [row(14, 1, 1, "S"), row(15, 2, 0, "F"), row(6, 1, 1, "D"), row(7, 2, 1, "D")];
    assert_eq!((&filled[..4], filled[9]), (&start[..], row(13, 8, 1, "D")));
    assert_eq!(rows(&image, &ZERO, 11).0, deep(14));
}

#[test]
fn a_directory_that_names_itself() {
    // "A" (a file) before, so that the tenth level is met with row 18: A, D on nine levels.
    let before =
        planted(&ZERO, vec![Node::directory(vec![line("A", 1), line("D", 0)]), Node::file(0)]);
    let all: Vec<_> =
        (1..=9).flat_map(|level| [row(6, level, 0, "A"), row(5, level, 1, "D")]).collect();
    for room in 0..=17 {
        assert_eq!(rows(&before, &ZERO, room), (done(room as u32, 1), all[..room].to_vec()));
    }
    for room in [18, 19, 1_000] {
        assert_eq!(rows(&before, &ZERO, room), (deep(5), vec![]));
    }
    // "A" behind: row 9 meets the tenth level, and "A" is never come to.
    let behind =
        planted(&ZERO, vec![Node::directory(vec![line("D", 0), line("A", 1)]), Node::file(0)]);
    let downwards: Vec<_> = (1..=9).map(|level| row(5, level, 1, "D")).collect();
    for room in 0..=8 {
        assert_eq!(rows(&behind, &ZERO, room), (done(room as u32, 1), downwards[..room].to_vec()));
    }
    assert_eq!(rows(&behind, &ZERO, 9), (deep(5), vec![]));
    for image in [before, behind] {
        assert_eq!(find(&image, &ZERO, &down(9)), done(5, 0));
        assert_eq!(find(&image, &ZERO, &(down(8) + ">A")), done(6, 0));
        assert_eq!(find(&image, &ZERO, &(down(9) + ">A")), deep(5));
    }
}

#[test]
fn directories_that_name_each_other() {
    // The root names 6, 6 names 7, 7 names 6: even levels are 6, and so is the tenth.
    let nodes = vec![
        Node::directory(vec![line("D", 1)]),
        Node::directory(vec![line("D", 2)]),
        Node::directory(vec![line("D", 1)]),
    ];
    let image = planted(&ZERO, nodes);
    let all: Vec<_> = (1..=9).map(|level| row(7 - level % 2, level, 1, "D")).collect();
    assert_eq!(rows(&image, &ZERO, 8), (done(8, 1), all[..8].to_vec()));
    assert_eq!(rows(&image, &ZERO, 9), (deep(6), vec![]));
    assert_eq!(find(&image, &ZERO, &down(9)), done(6, 0));
    assert_eq!(find(&image, &ZERO, &down(10)), deep(6));
}

#[test]
fn many_rows_from_few_directories() {
    // Each of eight directories names the next one 16 times: 16 + 16^2 + ... rows; few are asked for.
    let lines = |next: usize| vec![line("D", next); 16];
    let mut nodes: Vec<Node> = (1..=8).map(|next| Node::directory(lines(next))).collect();
    nodes.push(Node::directory(vec![]));
    let image = planted(&ZERO, nodes);
    let (answer, filled) = rows(&image, &ZERO, 100_000);
    assert_eq!(answer, done(100_000, 1));
    // Seven rows go down to level 7, and 16 of level 8 follow each one of level 7.
    assert_eq!(filled[7], row(13, 8, 1, "D"));
    assert_eq!(filled[23], row(12, 7, 1, "D"));
    assert_eq!(filled[24], row(13, 8, 1, "D"));
}
