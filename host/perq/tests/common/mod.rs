//! Trees small enough to work every answer out by hand, for the tests of directories through the typed calls.
#![allow(dead_code)]

use perq::{look_up, tree, Drive, Refusal, Rule, Target};
use reference::tree_sample::{plant, Line, Names, Node, Tree};

pub const DRIVE: Drive = Drive::Shugart24;
/// Node i of a tree has its own block at S + 1 + i.
pub const S: u32 = 5;

/// The block of a node.
pub fn block(node: u32) -> u32 {
    S + 1 + node
}

/// The image of a tree with these nodes.
pub fn image(rule: &Rule, nodes: Vec<Node>) -> Vec<u8> {
    let tree = Tree { rule: rule.bytes().to_vec(), nodes };
    let e = S + tree.blocks() + 2;
    plant(&tree, DRIVE.number(), e + 2, S, e)
}

/// A directory with these names for these nodes.
pub fn directory(lines: &[(&str, usize)]) -> Node {
    let line = |&(name, node): &(&str, usize)| Line::new(name.as_bytes(), Names::Node(node));
    Node::directory(lines.iter().map(line).collect())
}

/// Notes and Sub in the root; Deep.Pas and a line that dangles in Sub; then Last in the root again.
pub fn small() -> Vec<u8> {
    let mut sub = directory(&[("Deep.Pas", 3)]);
    sub.lines.push(Line::new(b"Gone", Names::Words(0)));
    let root = directory(&[("Notes", 2), ("Sub", 1), ("Last", 3)]);
    image(&Rule::Unknown, vec![root, sub, Node::file(2), Node::file(0)])
}

/// What a path leads to, without a rule.
pub fn led(image: &[u8], path: &str) -> Result<Option<Target>, Refusal> {
    look_up(image, DRIVE, S, &Rule::Unknown, path.as_bytes())
}

/// The tree, without a rule.
pub fn listed(image: &[u8], most: usize) -> Result<perq::Tree, Refusal> {
    tree(image, DRIVE, S, &Rule::Unknown, most)
}

/// So many directories, each in the one before under the name D, and a file Leaf in the last.
pub fn ladder(levels: usize) -> Vec<u8> {
    let mut nodes: Vec<Node> = (1..levels).map(|next| directory(&[("D", next)])).collect();
    nodes.push(directory(&[("Leaf", levels)]));
    nodes.push(Node::file(0));
    image(&Rule::Unknown, nodes)
}
