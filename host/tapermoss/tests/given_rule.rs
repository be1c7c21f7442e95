//! --rule as it is given: a row of numbers or a file that holds them, what is wrong with anything else, and what is said of
//! the entries that the rule passes over.

mod common;

use common::planted::{letters, line, Planted};
use common::{fails_with, misused, object, printed, tool, Folder};
use reference::random_tree::random_tree;
use reference::sample::Rng;
use reference::tree_sample::{Line, Node, Stand, Tree};

/// A tree by the rule that a name's hash is its length, with one entry in its place and one that is not.
fn misplaced() -> Planted {
    let mut rule = vec![0; 26];
    rule[0] = 1;
    let mut wrong = line("wrong", 1);
    wrong.stand = Stand::Block(1);
    let nodes = vec![Node::directory(vec![line("good", 1), wrong]), Node::file(0)];
    Planted::of(Tree { rule, nodes })
}

#[test]
fn an_entry_that_the_rule_does_not_select_is_not_taken() {
    let folder = Folder::new();
    let planted = misplaced();
    let image = folder.put("disk", &planted.image);
    let heading = "the root directory is file 7\n\n   LBN  name\n";
    let rule = planted.rule().expect("it is known");
    let text = printed(&["tree", &image, "--rule", &rule]);
    let passed = "1 valid entry of these directories stands in a block that the rule does not select, and was passed over";
    assert_eq!(text, format!("{heading}     8  good\n\n{passed}\n"));
    let text = printed(&["tree", &image]);
    assert_eq!(text, format!("{heading}     8  wrong\n     8  good\n"));
    let other = rule.replacen('1', "2", 1);
    let passed = "2 valid entries of these directories stand in blocks that the rule does not select, and were passed over";
    assert_eq!(printed(&["tree", &image, "--rule", &other]), format!("{heading}\n{passed}\n"));
}

#[test]
fn a_rule_is_a_row_of_numbers_or_a_file_with_them() {
    let folder = Folder::new();
    let planted = misplaced();
    let image = folder.put("disk", &planted.image);
    let row = planted.rule().expect("it is known");
    let expected = printed(&["tree", &image, "--rule", &row]);
    let lines = row.replace(',', "\n");
    let files = [
        ("commas", row.clone()),
        ("lines", format!("# the rule\n{lines}\n")),
        ("mixed", format!("{},\r\n#1,2,3\n\t{}\n\n", &row[..12], &row[12..])),
        ("zeros", row.replace('1', "001")),
        ("behind", format!("  # none\n{} # 9, 9\n{}#x\n#", &row[..12], &row[12..])),
        ("long", format!("{}\n{row}\n", "# remark\n".repeat(200_000))),
        ("12 disk.rule", row.clone()),
    ];
    for (name, text) in files {
        let file = folder.put(name, text.as_bytes());
        assert_eq!(printed(&["tree", &image, "--rule", &file]), expected, "{name}");
    }
    for row in [row.replace(',', " "), row.replace(',', ", "), format!(" {row} ,")] {
        assert_eq!(printed(&["tree", &image, "--rule", &row]), expected, "{row}");
    }
}

#[test]
fn what_is_no_rule_is_said_to_be_none() {
    let folder = Folder::new();
    let image = folder.put("disk", &letters().image);
    let twenty_five = vec!["7"; 25].join(",");
    let rules = [
        (twenty_five.clone(), "a rule has 26 numbers, and --rule has 25"),
        ("26".to_string(), "a rule has 26 numbers, and --rule has 1"),
        (format!("{twenty_five},8,9"), "a rule has 26 numbers, and --rule has 27"),
        (" ".to_string(), "a rule has 26 numbers, and --rule has 0"),
        (
            format!("{twenty_five},256"),
            "a rule's numbers are 0 to 255, and '256' in --rule is above 255",
        ),
        (
            format!("{twenty_five},99999999999999999999"),
            "a rule's numbers are 0 to 255, and '99999999999999999999' in --rule is above 255",
        ),
        (
            format!("{twenty_five},-1"),
            "a rule's numbers are 0 to 255, and '-1' in --rule is no number",
        ),
        ("-1,2".to_string(), "a rule's numbers are 0 to 255, and '-1' in --rule is no number"),
        ("[1, 2]".to_string(), "a rule's numbers are 0 to 255, and '[1' in --rule is no number"),
        ("--1".to_string(), "a rule's numbers are 0 to 255, and '--1' in --rule is no number"),
        ("+1".to_string(), "a rule's numbers are 0 to 255, and '+1' in --rule is no number"),
        ("0.5".to_string(), "a rule's numbers are 0 to 255, and '0.5' in --rule is no number"),
        ("..".to_string(), "a rule's numbers are 0 to 255, and '..' in --rule is no number"),
    ];
    for (rule, sentence) in rules {
        let hint = "a file of such a name is given with ./ before it";
        let told = misused(&["tree", &image, "--rule", &rule]);
        assert_eq!(told, format!("tapermoss: {sentence}; {hint}\n"));
        let told = misused(&["cat", &image, "--path", "x", "--rule", &rule]);
        assert_eq!(told, format!("tapermoss: {sentence}; {hint}\n"));
    }
}

#[test]
fn a_file_that_is_named_like_a_number_is_given_with_its_folder() {
    let folder = Folder::new();
    let planted = misplaced();
    let image = folder.put("disk", &planted.image);
    let row = planted.rule().expect("it is known");
    folder.put("26", row.as_bytes());
    let run = |rule| {
        tool(&["tree", &image, "--rule", rule]).current_dir(&folder).output().expect("it runs")
    };
    assert_eq!(run("./26").stdout, printed(&["tree", &image, "--rule", &row]).into_bytes());
    assert_eq!(run("26").status.code(), Some(2));
}

#[test]
fn a_file_that_holds_no_rule_is_said_to_hold_none() {
    let folder = Folder::new();
    let image = folder.put("disk", &letters().image);
    let file = folder.put("rule", b"1, 2\n# 3\n4 five");
    let told = misused(&["tree", &image, "--rule", &file]);
    let sentence = format!("a rule's numbers are 0 to 255, and 'five' in {file} is no number");
    assert_eq!(told, format!("tapermoss: {sentence}\n"));
    let file = folder.put("rule", b"# none\n");
    let told = misused(&["tree", &image, "--rule", &file]);
    assert_eq!(told, format!("tapermoss: a rule has 26 numbers, and {file} has 0\n"));
    let file = folder.put("rule", &vec![b' '; (16 << 20) + 1]);
    let told = misused(&["tree", &image, "--rule", &file]);
    assert_eq!(told, format!("tapermoss: {file} has more than 16777216 bytes: it is no rule\n"));
    let nowhere = folder.text("nowhere");
    fails_with(
        5,
        &["tree", &image, "--rule", &nowhere],
        &format!("cannot read {nowhere}: No such file or directory (os error 2)"),
    );
}

/// How many valid lines of the directories that a walk looks into stand in blocks that they do not select.
fn passed_over(planted: &Planted, entries: &[common::planted::Entry]) -> usize {
    let mut directories: Vec<usize> = vec![0];
    for entry in entries.iter().filter(|entry| entry.what == "directory") {
        let node = entry.lbn.expect("a block") as usize - 7;
        if !directories.contains(&node) {
            directories.push(node);
        }
    }
    let is_valid = |line: &&Line| line.flags % 2 == 1 && (1..=25).contains(&line.length);
    let valid = |node: &usize| planted.tree.nodes[*node].lines.iter().filter(is_valid).count();
    directories.iter().map(|node| valid(node) - planted.taken(*node).len()).sum()
}

#[test]
fn what_the_rule_passes_over_is_counted() {
    let (mut rng, mut seen) = (Rng::new(25), [0; 3]);
    for _ in 0..60 {
        let levels = 1 + rng.below(8);
        let planted = Planted::of(random_tree(&mut rng, levels));
        let (Some(rule), Ok((entries, true))) = (planted.rule(), planted.entries(2_000)) else {
            continue;
        };
        let folder = Folder::new();
        let image = folder.put("disk", &planted.image);
        let count = passed_over(&planted, &entries);
        for command in ["tree", "files"] {
            let line = [command, &image, "--rule", &rule];
            assert_eq!(object(&line)["passed_over"], count, "{command}");
            assert_eq!(printed(&line).contains(" passed over\n"), count > 0, "{command}");
            let text = printed(&[command, &image]);
            assert!(!text.contains("passed over"), "{text}");
        }
        seen[count.min(2)] += 1;
    }
    assert!(seen.iter().all(|&times| times > 2), "{seen:?}");
}

#[test]
fn a_directory_that_was_not_looked_into_is_not_counted() {
    // The length is the hash: `wrong` should stand in block 5 and does in 1, in the root and in the directory in it.
    let mut rule = vec![0; 26];
    rule[0] = 1;
    let wrong = || Line { stand: Stand::Block(1), ..line("wrong", 1) };
    let nodes = vec![
        Node::directory(vec![line("file", 1), line("sub", 2), wrong()]),
        Node::file(0),
        Node::directory(vec![line("file", 1), wrong(), wrong()]),
    ];
    let planted = Planted::of(Tree { rule, nodes });
    let folder = Folder::new();
    let image = folder.put("disk", &planted.image);
    let rule = planted.rule().expect("it is known");
    for (rows, count) in [("1", 1), ("2", 3), ("9", 3)] {
        let found = object(&["tree", &image, "--rule", &rule, "--rows", rows]);
        assert_eq!(found["entries"][0]["name"], "sub");
        assert_eq!(found["passed_over"], count, "{rows}");
    }
}
