//! Requests 1 and 4 together: a directory with a double index is looked through to its last block.

mod common;
use common::directories::{line_in, row, ZERO};
use common::*;
use reference::tree_sample::{plant, Node, Tree};
use reference::*;

/// Drive 0, partition 4..4,400: the root at 5 has 4,200 blocks, and names the files at 6, 7 and 8. By
/// the rule every name selects the blocks 31k, among them 4,154 and 4,185, which is named through -2.
fn planted() -> Vec<u8> {
    let lines = vec![line_in(4_185, "B", 2), line_in(4_154, "A", 1), line_in(4_186, "C", 3)];
    let root = Node { length: 4_200, ..Node::directory(lines) };
    let nodes = vec![root, Node::file(1), Node::file(0), Node::file(0)];
    plant(&Tree { rule: ZERO.to_vec(), nodes }, 0, 4_410, 4, 4_400)
}

#[test]
fn entries_beyond_4159_are_found() {
    let image = planted();
    // The root has 1 + 4,200 + 33 + 1 blocks, the others 2, 1 and 1.
    assert_eq!(check(&image, 0, 4), Answer { a: 4, b: 4_239, c: 157, ..Answer::default() });
    let find = |rule: &[u8], name: &str| look_up(&image, 0, 4, rule, name.as_bytes());
    assert_eq!(find(&ZERO, "a"), done(6, 0));
    assert_eq!(find(&ZERO, "b"), done(7, 0));
    assert_eq!((find(&ZERO, "c"), find(&[], "c")), (absent(), done(8, 0)));
    let mut rows = [0; 32 * 3];
    assert_eq!(tree(&image, 0, 4, &ZERO, &mut rows), done(2, 0));
    assert_eq!(rows, [row(6, 1, 0, "A"), row(7, 1, 0, "B"), [0; 32]].concat()[..]);
}

#[test]
fn a_root_with_a_damaged_double_index_is_no_file() {
    let image = with(&planted(), &[], &[(5, 8 + 244, 0)]);
    assert_eq!(look_up(&image, 0, 4, &ZERO, b"a"), refused(6));
    assert_eq!(tree(&image, 0, 4, &ZERO, &mut [0; 32]), refused(6));
}
