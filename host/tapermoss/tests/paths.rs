//! `--path` wherever a command takes a file: the file that the description of the tree has there, and a sentence that says
//! which part of a path leads nowhere.

mod common;

use common::planted::{chain, escaped, letters, line, Led, Planted, S};
use common::{fails, fails_with, misused, printed, printed_bytes, told, tool, Folder, FLOPPY};
use reference::random_tree::{random_path, random_tree};
use reference::sample::{named, Rng};
use reference::tree_sample::{set_root, Line, Node, Stand, Tree};
use std::ffi::OsStr;
use std::os::unix::ffi::OsStrExt;

const ALL: u32 = u32::MAX;

/// What is done to an image.
type Change<'a> = &'a dyn Fn(&mut Vec<u8>);

#[test]
fn looking_by_path_is_looking_by_block() {
    let folder = Folder::new();
    let image = folder.put("disk", &letters().image);
    let paths = [("letters>first.text", "9", 3, b'T'), ("HOUSE.Drawing", "10", 70, b'D')];
    for (path, file, blocks, byte) in paths {
        let bytes = printed_bytes(&["cat", &image, "--path", path]);
        assert!(bytes == vec![byte; 512 * blocks], "{path}");
        let show =
            |named: [&str; 2]| printed(&[&["show", &image, "--block", "2"], &named[..]].concat());
        assert_eq!(show(["--path", path]), show(["--file", file]));
        let text = printed(&["cat", &image, "--path", path, "--json"]);
        assert_eq!(text, printed(&["cat", &image, "--file", file, "--json"]));
    }
}

#[test]
fn changing_by_path_is_the_change_of_that_file() {
    let description = named(b"another name");
    let folder = Folder::new();
    let image = folder.put("disk", &letters().image);
    let one = folder.put("one", &[5; 512]);
    let bytes = folder.put("bytes", &description);
    let path = "Letters>FIRST.text";
    let lines: [(&[&str], Change); 3] = [
        (&["write", "--from", &one, "--block", "3"], &|image| {
            reference::write(image, FLOPPY, S, 9, 3, &[5; 512], ALL);
        }),
        (&["describe", "--bytes", &bytes], &|image| {
            reference::describe(image, FLOPPY, S, 9, &description, ALL);
        }),
        (&["destroy"], &|image| {
            reference::destroy(image, FLOPPY, S, 9, ALL);
        }),
    ];
    for (line, change) in lines {
        let mut expected = letters().image;
        change(&mut expected);
        let line = [line, &[&image, "--path", path, "--force"]].concat();
        assert!(printed(&line).starts_with("file 9"), "{line:?}");
        assert!(folder.read("disk.new") == expected, "{line:?}");
    }
}

/// Why each path leads nowhere in the tree of letters.
const NOWHERE: [(&str, &str); 12] = [
    ("none", "is not there: the root directory (block 7) has no entry 'none'"),
    ("none>first.text", "is not there: the root directory (block 7) has no entry 'none'"),
    ("letters>second.text", "is not there: 'letters' (block 8) has no entry 'second.text'"),
    ("LETTERS>a>b>c", "is not there: 'LETTERS' (block 8) has no entry 'a'"),
    ("letters>", "is not there: a path does not end in '>'"),
    ("house.drawing>", "is not there: a path does not end in '>'"),
    (">", "is not there: a path does not end in '>'"),
    ("letters>>x", "is not there: 'letters' (block 8) has no entry ''"),
    (">letters", "is not there: the root directory (block 7) has no entry ''"),
    ("house.drawing>x", "is not there: 'house.drawing' (block 10) is no directory"),
    ("lost.text>x>y", "is not there: 'lost.text' is a dangling entry: it holds nil"),
    ("letters>old", "is a dangling entry: it holds nil"),
];

#[test]
fn a_path_that_leads_nowhere_says_where_it_ends() {
    let folder = Folder::new();
    let image = folder.put("disk", &letters().image);
    let one = folder.put("one", &[5; 512]);
    let commands: [&[&str]; 6] = [
        &["cat"],
        &["show", "--block", "0"],
        &["write", "--from", &one],
        &["describe", "--name", "x"],
        &["destroy"],
        &["destroy", "--in-place"],
    ];
    for (path, why) in NOWHERE {
        for command in commands {
            let line = [command, &[&image, "--path", path]].concat();
            fails_with(7, &line, &format!("the path '{path}' {why}"));
        }
    }
    assert_eq!(folder.names(), ["disk", "one"]);
    assert!(folder.read("disk") == letters().image);
}

#[test]
fn a_directory_of_the_tenth_level_may_be_named_and_not_looked_into() {
    let folder = Folder::new();
    let image = folder.put("disk", &chain(10).image);
    let path = ["D"; 9].join(">");
    let text = printed(&["cat", &image, "--path", &path, "--json"]);
    assert!(text.contains("\"file\": 16,"), "{text}");
    for below in ["D", "x", "D>D>D"] {
        let path = format!("{path}>{below}");
        fails(
            &["cat", &image, "--path", &path],
            "refused (11): the directory at block 16 is of the tenth level, and only nine are looked into",
        );
    }
}

#[test]
fn a_partition_without_a_root_has_no_paths() {
    let folder = Folder::new();
    let mut bytes = letters().image;
    set_root(&mut bytes, S, 0);
    let image = folder.put("disk", &bytes);
    for path in ["", "letters", "a>b"] {
        fails(
            &["cat", &image, "--path", path],
            "refused (6): the partition at block 6 has no root directory: its RootDirectoryID is nil",
        );
    }
    fails(
        &["cat", &image, "--path", "x", "--partition", "9"],
        "refused (2): no good partition starts at block 9",
    );
}

#[test]
fn random_paths_lead_where_the_descriptions_say() {
    let (mut rng, mut seen) = (Rng::new(21), [0; 4]);
    for _ in 0..40 {
        let levels = 8 + rng.below(4);
        let planted = Planted::of(random_tree(&mut rng, levels));
        let folder = Folder::new();
        let image = folder.put("disk", &planted.image);
        let rule = planted.rule();
        let rule: Vec<&str> = rule.iter().flat_map(|rule| ["--rule", rule]).collect();
        for _ in 0..8 {
            let path = random_path(&mut rng, &planted.tree);
            let mut command = tool(&["cat", &image, "--path"]);
            let output =
                command.arg(OsStr::from_bytes(&path)).args(&rule).output().expect("the tool runs");
            let shown = escaped(&path);
            let said = told(&output);
            let expected = match planted.led(&path) {
                Led::File(file) => {
                    let whole = printed_bytes(&["cat", &image, "--file", &file.to_string()]);
                    assert!(output.stdout == whole, "{shown}");
                    (0, said.is_empty())
                }
                Led::Dangling => {
                    (1, said.contains(&format!("the path '{shown}' is a dangling entry: it ")))
                }
                Led::Nowhere => (2, said.contains(&format!("the path '{shown}' is not there: "))),
                Led::TooDeep(block) => {
                    (3, said.contains(&format!("refused (11): the directory at block {block} is")))
                }
            };
            assert!(expected.1, "{shown}: {output:?}");
            assert_eq!(output.status.code(), Some([0, 7, 7, 1][expected.0]), "{shown}: {said}");
            seen[expected.0] += 1;
        }
    }
    assert!(seen.iter().all(|&times| times > 5), "{seen:?}");
}

#[test]
fn a_path_is_looked_up_by_the_rule() {
    // Weight 1 for the length, 0 for the rest: `good` stands in block 4, and `wrong` should in 5 but does in 1.
    let mut rule = vec![0; 26];
    rule[0] = 1;
    let wrong = Line { stand: Stand::Block(1), ..line("wrong", 1) };
    let nodes = vec![Node::directory(vec![line("good", 1), wrong]), Node::file(1)];
    let planted = Planted::of(Tree { rule, nodes });
    let folder = Folder::new();
    let image = folder.put("disk", &planted.image);
    let rule = planted.rule().expect("it is known");
    let file = folder.put("rule", rule.as_bytes());
    for rule in [rule, file] {
        assert_eq!(printed_bytes(&["cat", &image, "--path", "GOOD", "--rule", &rule]).len(), 512);
        fails_with(
            7,
            &["cat", &image, "--path", "wrong", "--rule", &rule],
            "the path 'wrong' is not there: the root directory (block 7) has no entry 'wrong' in a block that the rule selects",
        );
    }
    assert_eq!(printed_bytes(&["cat", &image, "--path", "wrong"]).len(), 512);
}

#[test]
fn a_file_is_named_once() {
    let folder = Folder::new();
    let image = folder.put("disk", &letters().image);
    for command in [&["cat"][..], &["show", "--block", "0"], &["destroy"]] {
        let both = [command, &[&image, "--file", "9", "--path", "letters"]].concat();
        let told = misused(&both);
        assert!(told.contains("--file") && told.contains("--path"), "{told}");
        let neither = [command, &[&image]].concat();
        let told = misused(&neither);
        assert!(told.contains("--file <LBN>|--path <PATH>"), "{told}");
        let told = misused(&[command, &[&image, "--file", "9", "--rule", "1"]].concat());
        assert!(told.contains("--file") && told.contains("--rule"), "{told}");
        let told = misused(&[command, &[&image, "--rule", "1"]].concat());
        assert!(told.contains("--path"), "{told}");
    }
}
