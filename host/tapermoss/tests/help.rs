//! The help: every command that is there has examples, and they are of that command.

mod common;

use common::printed;

/// The commands that the help lists.
fn commands() -> Vec<String> {
    let help = printed(&["--help"]);
    let (_, list) = help.split_once("Commands:\n").expect("a list of commands");
    let (list, _) = list.split_once("\n\n").expect("its end");
    let names = list.lines().filter_map(|line| line.split_whitespace().next());
    names.filter(|&name| name != "help").map(str::to_string).collect()
}

#[test]
fn the_help_lists_every_command() {
    let conversions = ["address", "tour"].as_slice();
    let reading = ["partitions", "check", "files", "tree", "rule", "cat", "show", "map"].as_slice();
    let changing =
        ["repair", "batch", "create", "write", "describe", "destroy", "fresh"].as_slice();
    let mut expected = [conversions, reading, changing].concat();
    let mut found = commands();
    found.sort();
    expected.sort_unstable();
    assert_eq!(found, expected);
}

#[test]
fn every_command_has_an_example_in_its_help() {
    for command in commands() {
        let help = printed(&[&command, "--help"]);
        let (_, examples) = help.split_once("Example").expect("examples in the help");
        let lines: Vec<&str> = examples.lines().skip(1).collect();
        assert!(!lines.is_empty(), "{command}");
        let start = format!("  tapermoss {command}");
        assert!(lines.iter().all(|line| line.starts_with(&start)), "{help}");
    }
}

#[test]
fn the_help_and_the_guide_name_every_status_and_which_is_worse() {
    let order = "in the order 0, 3, 7, 4, 6, 1, 2, 5";
    let help = printed(&["--help"]);
    assert!(help.contains(&format!("{order}:\n")), "{help}");
    let guide = concat!(env!("CARGO_MANIFEST_DIR"), "/../../docs/TOOL.md");
    let guide = std::fs::read_to_string(guide).expect("it is there");
    assert!(guide.contains(&format!("{order}. ")));
    for status in 0..8 {
        assert_eq!(help.matches(&format!("\n  {status}  ")).count(), 1, "{status}");
        assert_eq!(guide.matches(&format!("\n| {status} | ")).count(), 1, "{status}");
    }
}
