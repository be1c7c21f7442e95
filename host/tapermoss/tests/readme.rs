//! The README's examples: every line of its console blocks is run, in a new folder and with the tool on the PATH, and must
//! print what stands below it.

mod common;

use common::Folder;
use std::fs;
use std::path::Path;
use std::process::Command;

const TOP: &str = concat!(env!("CARGO_MANIFEST_DIR"), "/../..");

fn readme() -> String {
    fs::read_to_string(Path::new(TOP).join("README.md")).expect("it is there")
}

/// The commands of the console blocks in their order, each with what it should print.
fn examples(text: &str) -> Vec<(String, String)> {
    let blocks = text.split("```console\n").skip(1).filter_map(|rest| rest.split("```").next());
    let mut examples: Vec<(String, String)> = Vec::new();
    for line in blocks.flat_map(str::lines) {
        match (line.strip_prefix("$ "), examples.last_mut()) {
            (Some(command), _) => examples.push((command.to_string(), String::new())),
            (None, Some((_, printed))) => *printed += &format!("{line}\n"),
            (None, None) => panic!("{line} stands before any command"),
        }
    }
    examples
}

#[test]
fn the_examples_run_as_printed_in_a_new_folder() {
    let folder = Folder::new();
    let tool = Path::new(env!("CARGO_BIN_EXE_tapermoss")).parent().expect("a folder");
    let path = format!("{}:{}", tool.display(), std::env::var("PATH").expect("a PATH"));
    let examples = examples(&readme());
    assert!(examples.len() >= 8, "the three jobs");
    for (command, expected) in examples {
        let output = Command::new("sh")
            .args(["-c", &format!("exec 2>&1; {command}")])
            .current_dir(&folder)
            .env("PATH", &path)
            .output()
            .expect("a shell");
        assert_eq!(String::from_utf8_lossy(&output.stdout), expected, "$ {command}");
    }
}

#[test]
fn the_readme_says_where_the_tool_is() {
    let text = readme();
    let place = "build/host/release";
    assert!(text.contains(&format!("`{place}/tapermoss`")), "its path");
    let makefile = fs::read_to_string(Path::new(TOP).join("Makefile")).expect("it is there");
    assert!(makefile.contains(&format!("{place}/tapermoss")), "make run calls it there");
}
