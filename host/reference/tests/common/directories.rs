//! Small trees for the tests of directories, in which every answer can be worked by hand. All images
//! are floppies with the partition 4..420, so that node i of a tree is the file at 5+i.

use reference::tree_sample::{plant, Line, Names, Node, Stand, Tree};
use reference::*;

pub const DRIVE: u32 = 3;
pub const S: u32 = 4;
/// The rule by which all names select blocks 0, 31, 62, ...
pub const ZERO: [u8; 26] = [0; 26];

/// The image of a tree with these nodes; its partition is sound.
pub fn planted(rule: &[u8], nodes: Vec<Node>) -> Vec<u8> {
    let rule = rule.to_vec();
    let image = plant(&Tree { rule, nodes }, DRIVE, 432, S, 420);
    assert_eq!(check(&image, DRIVE, S).outcome, DONE);
    image
}

/// A line in the first block that the name selects.
pub fn line(name: &str, node: usize) -> Line {
    Line::new(name.as_bytes(), Names::Node(node))
}

/// The same in this block.
pub fn line_in(block: u32, name: &str, node: usize) -> Line {
    Line { stand: Stand::Block(block), ..line(name, node) }
}

/// The answer of look up.
pub fn find(image: &[u8], rule: &[u8], path: &str) -> Answer {
    look_up(image, DRIVE, S, rule, path.as_bytes())
}

/// The answer of tree, and the rows filled. Under a refusal, and behind the rows, no byte changes.
pub fn rows(image: &[u8], rule: &[u8], room: usize) -> (Answer, Vec<[u8; 32]>) {
    let mut bytes = vec![0xA5; 32 * room];
    let answer = tree(image, DRIVE, S, rule, &mut bytes);
    let (filled, rest) = bytes.split_at(32 * answer.a as usize);
    assert!(rest.iter().all(|&byte| byte == 0xA5));
    (answer, filled.chunks(32).map(|row| row.try_into().unwrap()).collect())
}

/// The bytes of a row; the LBNs of these trees are below 256.
pub fn row(lbn: u8, level: u8, what: u8, name: &str) -> [u8; 32] {
    let mut row = [0; 32];
    row[..7].copy_from_slice(&[lbn, 0, 0, 0, level, what, name.len() as u8]);
    row[7..7 + name.len()].copy_from_slice(name.as_bytes());
    row
}

/// A chain of so many directories, the root first, each in the one before as "D"; the last has these.
pub fn chain(levels: usize, last: Vec<Line>) -> Vec<Node> {
    let mut nodes: Vec<Node> =
        (1..levels).map(|next| Node::directory(vec![line("D", next)])).collect();
    nodes.push(Node::directory(last));
    nodes
}

/// "D" so many times, joined.
pub fn down(times: usize) -> String {
    vec!["D"; times].join(">")
}
