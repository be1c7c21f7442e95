//! The commands on big files, those with a double index: a file of 4,290 blocks has -2, one of 20,546 has -3 too.

mod common;

use common::{fails, object, printed, printed_bytes, printed_with, Folder};
use reference::sample::content;
use reference::DONE;
use serde_json::{json, Value};
use std::collections::BTreeSet;
use trials::big::{self, FILE, OTHER, SEED};
use trials::images::{indexed, Place};

/// A folder with `disk`, an image with file 2 of so many blocks and file 3 of three.
fn with_a_file(length: u32, free: u32) -> (Folder, Place, String) {
    let folder = Folder::new();
    let place = big::place(1, length, free);
    let path = folder.put("disk", &big::image(&place, length));
    (folder, place, path)
}

/// The words of a command on that image.
fn words<'a>(command: &'a str, path: &'a str, rest: &[&'a str]) -> Vec<&'a str> {
    [&[command, path, "--drive", "1"], rest].concat()
}

/// The words of a write of a letter into file 2 from a block on.
fn write<'a>(path: &'a str, block: &'a str, letter: &'a str, rest: &[&'a str]) -> Vec<&'a str> {
    let named = ["--file", "2", "--block", block, "--from", letter];
    words("write", path, &[&named, rest].concat())
}

/// The data of the big file from one block to before another.
fn data(blocks: std::ops::Range<u32>) -> Vec<u8> {
    blocks.flat_map(|r| content(SEED, 0, r)).collect()
}

fn shown(path: &str, r: u32) -> Value {
    object(&words("show", path, &["--file", "2", "--block", &r.to_string()]))
}

#[test]
fn a_big_file_is_printed_and_shown() {
    for length in [4_290, 20_546] {
        let (_folder, place, path) = with_a_file(length, 5);
        assert!(
            printed_bytes(&words("cat", &path, &["--file", "2"])) == data(0..length),
            "{length}"
        );
        let image = big::image(&place, length);
        for r in [63, 64, 4_159, 4_160, 4_288, length - 1] {
            let block = indexed(&image, &place, FILE, r as i32).expect("a block of the file");
            assert_eq!(shown(&path, r)["lbn"], block, "block {r} of {length}");
        }
        for (r, outcome) in [(length, "absent"), (32_766, "absent"), (32_767, "refused")] {
            assert_eq!(shown(&path, r)["outcome"], outcome, "block {r} of {length}");
        }
    }
}

#[test]
fn a_big_file_is_listed_and_checked() {
    // 4,290 blocks have 34 pointer blocks and -2, 20,546 have 161, -2 and -3; the file's own block is one more.
    for (length, in_use) in [(4_290, 4_326), (20_546, 20_710)] {
        let (_folder, place, path) = with_a_file(length, 5);
        let file = &object(&words("files", &path, &[]))["files"][0];
        let found = ["lbn", "blocks", "in_use"].map(|name| file[name].clone());
        assert_eq!(found, [FILE, length, in_use].map(|number| json!(number)));
        let partition = &object(&words("check", &path, &[]))["partitions"][0];
        let found = ["files", "owned", "free"].map(|name| partition[name].clone());
        assert_eq!(found, [2, in_use + 4, 5].map(|number| json!(number)));
        let partition = &object(&words("partitions", &path, &[]))["partitions"][0];
        assert_eq!(partition["blocks"], place.e - place.s + 1);
    }
}

/// The blocks that an SVG has titles for which end like this.
fn titled(svg: &str, what: &str) -> BTreeSet<u32> {
    let mut blocks = BTreeSet::new();
    for title in svg.split("<title>").skip(1).filter_map(|rest| rest.split("</title>").next()) {
        let Some(numbers) = title.strip_suffix(&format!(": {what}")) else { continue };
        let numbers: Vec<u32> = numbers.split(' ').filter_map(|word| word.parse().ok()).collect();
        blocks.extend(numbers[0]..=numbers[numbers.len() - 1]);
    }
    blocks
}

#[test]
fn the_map_has_every_block_of_a_big_file() {
    for length in [4_160, 4_290, 20_546] {
        let (folder, place, path) = with_a_file(length, 5);
        let image = big::image(&place, length);
        let pointers = big::pointers(length) + big::doubles(length);
        let svg = folder.text("map.svg");
        let told = printed(&words("map", &path, &["--output", &svg]));
        let counts = format!(
            "files 2, data blocks {}, pointer blocks {pointers}, malformed file blocks 0, owned by no file 5\n",
            length + 3
        );
        assert_eq!(told, format!("{counts}written to {svg}\n"));
        let svg = String::from_utf8(folder.read("map.svg")).expect("text");
        let block = |relative| indexed(&image, &place, FILE, relative).expect("a block of it");
        let negatives =
            (-3 - big::pointers(length) as i32..=-4).chain(-1 - big::doubles(length) as i32..=-2);
        let expected: BTreeSet<u32> = negatives.map(block).collect();
        assert_eq!(expected.len() as u32, pointers);
        assert!(titled(&svg, "a pointer block of file 2") == expected, "pointers of {length}");
        let expected = (0..length as i32).map(block).collect();
        assert!(titled(&svg, "data of file 2") == expected, "data of {length}");
    }
}

#[test]
fn a_write_goes_over_the_edges_of_the_double_index() {
    for (from, stores) in [(4_159, 6 + 9 + 6), (20_543, 6 + 10 + 6)] {
        let (folder, place, path) = with_a_file(from, 9);
        let letter = folder.put("letter", &data(from..from + 3));
        let first = from.to_string();
        let told = printed(&write(&path, &first, &letter, &["--in-place"]));
        let line = format!("file 2, 3 blocks written: {stores} stores\n");
        assert_eq!(told, format!("{line}written to {path}\n"));
        assert!(folder.read("disk") == big::image(&place, from + 3), "from {from} on");
        printed(&words("destroy", &path, &["--file", "2", "--in-place"]));
        assert_eq!(object(&words("check", &path, &[]))["partitions"][0]["files"], 1);
    }
}

#[test]
fn a_write_that_is_cut_is_repaired() {
    // The seventh store is that of the file's own block, and decides.
    for (limit, length) in [(3, 4_160), (6, 4_160), (7, 4_161), (8, 4_161)] {
        let (folder, place, path) = with_a_file(4_160, 9);
        let letter = folder.put("letter", &data(4_160..4_161));
        let limit = limit.to_string();
        printed(&write(&path, "4160", &letter, &["--limit", &limit, "--in-place"]));
        printed_with(3, &words("repair", &path, &["--in-place"]));
        assert!(
            printed_bytes(&words("cat", &path, &["--file", "2"])) == data(0..length),
            "{limit}"
        );
        let mut other = vec![0; 3 * 512];
        let image = folder.read("disk");
        let answer = reference::extract(&image, place.drive, place.s, OTHER, &mut other);
        assert_eq!((answer.outcome, answer.a), (DONE, 3));
        assert!((0..).zip(other.chunks(512)).all(|(r, block)| block == content(SEED, 1, r)));
    }
}

#[test]
fn a_write_needs_a_block_for_the_double_index_too() {
    for (length, needs) in [(4_160, 3), (4_161, 1), (4_288, 2), (20_544, 3)] {
        let (folder, _, path) = with_a_file(length, needs);
        let letter = folder.put("letter", b"x");
        let first = length.to_string();
        let blocks = if needs == 1 { "block" } else { "blocks" };
        let told = format!("refused (8): file 2 needs {needs} {blocks} more, and the partition at block 1 has {needs} free, of which one must stay");
        fails(&write(&path, &first, &letter, &[]), &told);
        assert_eq!(folder.names(), ["disk", "letter"]);
    }
}
