//! What the tests of `tapermoss rule` share: directories planted under a known rule, and what the tool says of them.

use super::{tapermoss, with, FLOPPY};
use reference::directory::Rule;
use reference::sample::Rng;
use reference::tree_sample::{plant, Line, Names, Node, Stand, Tree};
use serde_json::{json, Value};

pub const FIRST: u32 = 6;

pub fn random_rule(rng: &mut Rng) -> Vec<u8> {
    let mut rule = vec![0; 26];
    rng.fill(&mut rule);
    rule
}

/// A name of so many characters.
pub fn random_name(rng: &mut Rng, length: u32) -> Vec<u8> {
    let characters = b"ABCDEFGHIJKLMNOPQRSTUVWXYZabcdefghijklmnopqrstuvwxyz0123456789.-$";
    (0..length).map(|_| characters[rng.below(characters.len() as u32) as usize]).collect()
}

/// A line that names no file, which is an entry like any other here.
pub fn line(name: &[u8]) -> Line {
    Line::new(name, Names::Words(0))
}

pub fn standing(name: &[u8], block: u32) -> Line {
    Line { stand: Stand::Block(block), ..line(name) }
}

/// So many lines with names of these lengths, where the rule puts them.
pub fn lines(rng: &mut Rng, count: usize, lengths: std::ops::RangeInclusive<u32>) -> Vec<Line> {
    let (shortest, spread) = (lengths.start(), lengths.end() - lengths.start() + 1);
    let mut name = |_| {
        let length = shortest + rng.below(spread);
        line(&random_name(rng, length))
    };
    (0..count).map(&mut name).collect()
}

/// A root with these lines, and a directory for each of the others, on a floppy.
pub fn planted(rule: &[u8], directories: Vec<Vec<Line>>) -> (Tree, Vec<u8>) {
    let nodes = directories.into_iter().map(Node::directory).collect();
    let tree = Tree { rule: rule.to_vec(), nodes };
    let image = plant(&tree, FLOPPY, 432, FIRST, 431);
    (tree, image)
}

/// The object that the tool prints for these images, and its exit status.
pub fn object(images: &[&str]) -> (Value, i32) {
    let output = tapermoss(&[&["rule", "--json"], images].concat());
    let object = serde_json::from_slice(&output.stdout).expect("JSON");
    (object, output.status.code().expect("it ends by itself"))
}

/// The object of one image, with which all is well.
pub fn learnt(image: &[u8]) -> Value {
    let folder = with(image);
    let (object, status) = object(&[&folder.text("disk")]);
    assert_eq!((status, &object["outcome"]), (0, &json!("done")), "{}", object["sentence"]);
    assert_eq!(folder.read("disk"), image, "the image is as it was");
    assert_eq!(folder.names(), ["disk"], "nothing is put beside it");
    object
}

/// The weights as only their remainders matter.
pub fn remainders(rule: &[u8]) -> Vec<u8> {
    rule.iter().map(|weight| weight % 31).collect()
}

pub fn weights(object: &Value) -> Vec<u8> {
    serde_json::from_value(object["weights"].clone()).expect("26 numbers")
}

pub fn hash(rule: &[u8], name: &[u8]) -> u32 {
    Rule::lent(rule).expect("26 bytes").hash(name).expect("a rule")
}

pub fn numbers(range: std::ops::Range<usize>) -> Value {
    range.collect::<Vec<usize>>().into()
}
