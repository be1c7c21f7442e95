//! The entries that stand where the rule does not put them: a table for a person, and all of them as JSON.

use super::images::Entry;
use crate::entries;
use crate::fields::escaped_name;
use crate::names::{hex, name_bytes, shown};
use serde_json::{json, Value};
use std::path::Path;

/// How many the table has at most.
const MOST: usize = 100;

/// An entry that stands where the rule does not put it: its image, the entry, its block modulo 31 and its hash.
pub type Wrong<'a> = (&'a Path, &'a Entry, u32, u8);

/// The entries that do not agree.
pub fn table(wrong: &[Wrong]) -> Vec<String> {
    if wrong.is_empty() {
        return Vec::new();
    }
    let mut lines = vec![
        "these do not agree: their block modulo 31 is not their hash".to_string(),
        "partition  directory  block  place  mod 31  hash  name                       image"
            .to_string(),
    ];
    for (path, entry, stands, hash) in wrong.iter().take(MOST) {
        let Entry { partition, directory, own } = entry;
        let entries::Entry { block, place, name, .. } = own;
        let (name, image) = (escaped_name(name), shown(path));
        lines.push(format!(
            "{partition:>9}  {directory:>9}  {block:>5}  {place:>5}  {stands:>6}  {hash:>4}  {name:<25}  {image}"
        ));
    }
    if wrong.len() > MOST {
        lines.push(format!("and {} more; --json has all", wrong.len() - MOST));
    }
    lines
}

pub fn as_json((path, entry, stands, hash): &Wrong) -> Value {
    json!({
        "image": shown(path), "image_bytes": name_bytes(path), "partition": entry.partition,
        "directory": entry.directory, "block": entry.own.block, "place": entry.own.place,
        "name": escaped_name(&entry.own.name), "name_bytes": hex(&entry.own.name),
        "stands": stands, "hash": hash,
    })
}
