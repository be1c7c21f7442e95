//! The walk-through of `make run`: it prints what examples/walk.out has and draws examples/map.svg, and docs/TOOL.md shows
//! parts of it as they are.

mod common;

use common::Folder;
use std::fs;
use std::path::PathBuf;
use std::process::Command;

fn top() -> PathBuf {
    PathBuf::from(env!("CARGO_MANIFEST_DIR")).join("../..")
}

fn kept(name: &str) -> String {
    fs::read_to_string(top().join(name)).expect("the file is there")
}

#[test]
fn the_walk_prints_and_draws_what_is_kept() {
    let folder = Folder::new();
    let output = Command::new(top().join("tools/walk"))
        .arg(env!("CARGO_BIN_EXE_tapermoss"))
        .arg(folder.path("walk"))
        .output()
        .expect("it runs");
    let printed = String::from_utf8_lossy(&output.stdout);
    assert!(output.status.success(), "{printed}");
    assert_eq!(printed, kept("examples/walk.out"));
    let drawn = String::from_utf8(folder.read("walk/sample.img.svg")).expect("text");
    assert_eq!(drawn, kept("examples/map.svg"));
}

#[test]
fn the_guide_shows_what_the_walk_prints() {
    let (guide, walk) = (kept("docs/TOOL.md"), kept("examples/walk.out"));
    let blocks: Vec<&str> =
        guide.split("```console\n").skip(1).filter_map(|rest| rest.split("```").next()).collect();
    assert!(blocks.len() >= 3, "the three jobs");
    for block in blocks {
        assert!(walk.contains(block), "not in examples/walk.out:\n{block}");
    }
}
