//! `tapermoss rule`: the weights that planted trees were made with are learnt again, entries in wrong blocks are named, and
//! what is no image, no partition and no directory is passed over.

mod common;

use common::rules::{
    hash, learnt, line, lines, numbers, object, planted, random_rule, remainders, weights, FIRST,
};
use common::{fails_with, printed, said, set_bytes, set_word, with, Folder, FLOPPY};
use reference::directory::DIRECTORY;
use reference::sample::Rng;
use reference::tree_sample::{plant, set_root, Line, Node, Stand, Tree};
use serde_json::{json, Value};

#[test]
fn the_weights_of_a_planted_tree_are_learnt() {
    let mut rng = Rng::new(1);
    for _ in 0..3 {
        let rule = random_rule(&mut rng);
        let directories = vec![lines(&mut rng, 120, 1..=25), lines(&mut rng, 150, 1..=25)];
        let object = learnt(&planted(&rule, directories).1);
        assert_eq!(weights(&object), remainders(&rule));
        assert_eq!(object["settled"], numbers(0..26), "{object}");
        assert_eq!(object["untold"], json!([]));
        assert_eq!(object["independent"], 26);
        let counts = ["entries", "agreeing", "directories", "images_with_entries"];
        assert_eq!(counts.map(|name| object[name].as_u64()), [270, 270, 2, 1].map(Some));
        assert_eq!((&object["placed_to"], &object["certain_to"]), (&json!(25), &json!(25)));
        assert_eq!((&object["certain"], &object["rival"]), (&json!(true), &Value::Null));
        assert_eq!(object["disagreeing"], json!([]));
    }
}

/// What the lines of directory i that do not stand where their names are put must be listed as.
fn wrong_lines(tree: &Tree, i: usize) -> Vec<Value> {
    let placed = tree.nodes[i].lines.iter().zip(tree.places(i));
    let wrong = placed.filter(|(line, (r, _))| r % 31 != hash(&tree.rule, &line.name));
    wrong
        .map(|(line, (r, place))| {
            json!({
                "partition": FIRST, "directory": FIRST + 1 + i as u32, "block": r, "place": place,
                "name": String::from_utf8(line.name.clone()).expect("a name that needs no escape"),
                "name_bytes": common::hex(&line.name), "stands": r % 31,
                "hash": hash(&tree.rule, &line.name),
            })
        })
        .collect()
}

/// Three directories of this rule with a hundred lines each, names of at most `longest` characters. One line of every so
/// many stands in a block that its name does not select.
fn damaged(rng: &mut Rng, rule: &[u8], longest: u32, every: usize) -> (Tree, Vec<u8>) {
    let mut directories =
        vec![lines(rng, 100, 1..=longest), lines(rng, 100, 1..=9), lines(rng, 100, 4..=12)];
    for line in directories.iter_mut().flatten().skip(every / 2).step_by(every) {
        line.stand = Stand::Block((hash(rule, &line.name) + 1 + rng.below(30)) % 31);
    }
    planted(rule, directories)
}

#[test]
fn entries_in_wrong_blocks_are_listed_exactly() {
    let mut rng = Rng::new(2);
    for (longest, every) in [(25, 150), (25, 40), (25, 10), (25, 5), (12, 3), (12, 2)] {
        let rule = random_rule(&mut rng);
        let (tree, image) = damaged(&mut rng, &rule, longest, every);
        let object = learnt(&image);
        let last = longest as usize;
        assert_eq!(
            weights(&object)[..=last],
            remainders(&rule)[..=last],
            "one of {every} is wrong"
        );
        let mut expected: Vec<Value> = (0..3).flat_map(|i| wrong_lines(&tree, i)).collect();
        let place = |entry: &Value| {
            ["directory", "block", "place"].map(|name| entry[name].as_u64().expect("a number"))
        };
        expected.sort_by_key(place);
        assert_eq!(expected.len(), 300 / every);
        let mut found = object["disagreeing"].as_array().expect("a list").clone();
        for entry in found.iter_mut().map(|it| it.as_object_mut().expect("an object")) {
            let path = ["image", "image_bytes"].map(|name| entry.remove(name));
            let [Some(Value::String(shown)), Some(Value::String(bytes))] = path else { panic!() };
            assert!(shown.ends_with("/disk") && bytes == common::hex(shown.as_bytes()));
        }
        assert_eq!(found, expected, "one of {every} is wrong");
        assert_eq!(object["agreeing"], 300 - expected.len());
    }
}

#[test]
fn the_text_lists_a_hundred_and_json_all() {
    let mut rng = Rng::new(14);
    for (every, count) in [(3, 100), (2, 150)] {
        let rule = random_rule(&mut rng);
        let folder = with(&damaged(&mut rng, &rule, 12, every).1);
        let (_, out, _) = said(&folder, "rule FOLDER/disk");
        let listed = out.lines().filter(|line| line.ends_with(" FOLDER/disk")).count();
        assert_eq!(listed, 100, "{out}");
        let last = out.lines().last().expect("a line");
        assert_eq!(last == "# and 50 more; --json has all", count == 150, "{last}");
        assert_eq!(out.contains("--json"), count == 150);
        let (object, _) = object(&[&folder.text("disk")]);
        assert_eq!(object["disagreeing"].as_array().map(Vec::len), Some(count));
    }
}

#[test]
fn the_help_says_what_the_words_mean_in_ten_lines() {
    let help = printed(&["rule", "--help"]);
    let is_it = |part: &&str| part.contains("A weight is settled if");
    let part = help.split("\n\n").find(is_it).expect("what settled means");
    assert!(part.lines().count() <= 10, "{part}");
    let part = part.split_whitespace().collect::<Vec<&str>>().join(" ");
    for told in [
        "the same in all rules that fit the entries that agree, and in all rivals that the search met",
        "A rule is confirmed if at least 4 different entries agree beyond those that the weights are solved from",
        "A rule is certain if it is confirmed and no rule",
        "all but one in twenty at most, stand in blocks 0, 31, 62 and so on, they say nothing of the rule",
    ] {
        assert!(part.contains(told), "{told}: {part}");
    }
    let help = help.split_whitespace().collect::<Vec<&str>>().join(" ");
    for told in [
        "a partition without a root directory is read too; that it has none is only mentioned",
        "4 if the entries say nothing of the rule, or if there is a rival",
    ] {
        assert!(help.contains(told), "{told}: {help}");
    }
}

#[test]
fn two_images_settle_what_one_of_them_does_not() {
    let mut rng = Rng::new(5);
    let rule = random_rule(&mut rng);
    let folder = Folder::new();
    let one = folder.put("one", &planted(&rule, vec![lines(&mut rng, 60, 1..=5)]).1);
    let two = folder.put("two", &planted(&rule, vec![lines(&mut rng, 9, 12..=12)]).1);
    let settled = |images: &[&str]| object(images).0["settled"].clone();
    assert_eq!(settled(&[&one]), numbers(0..6));
    // Nine equations for thirteen weights.
    assert_ne!(settled(&[&two]), numbers(0..13));
    let (both, status) = object(&[&one, &two]);
    assert_eq!((status, &both["settled"]), (0, &numbers(0..13)));
    assert_eq!(weights(&both)[..13], remainders(&rule)[..13]);
    assert_eq!((&both["directories"], &both["images_with_entries"]), (&json!(2), &json!(2)));
    let (turned, _) = object(&[&two, &one]);
    assert_eq!(turned["weights"], both["weights"]);
}

#[test]
fn what_is_no_image_is_passed_over() {
    let mut rng = Rng::new(6);
    let rule = random_rule(&mut rng);
    let folder = Folder::new();
    folder.put("good", &planted(&rule, vec![lines(&mut rng, 90, 1..=20)]).1);
    folder.put("ragged", &[0; 1000]);
    folder.put("zeros", &[0; 528 * 432]);
    let alone = printed(&["rule", &folder.text("good")]);
    let (status, out, err) = said(&folder, "rule FOLDER/ragged FOLDER/good FOLDER/zeros");
    assert_eq!(status, 1);
    assert_eq!(out.replace(' ', ""), alone.replace(' ', ""));
    assert_eq!(
        err,
        "tapermoss: FOLDER/ragged: refused (1): the image's 1000 bytes are no whole number of 528-byte records\n\
         tapermoss: FOLDER/zeros: refused (2): no good partition starts at any block\n"
    );
    let images = ["good", "ragged", "nowhere"].map(|name| folder.text(name));
    let (object, status) = object(&images.each_ref().map(String::as_str));
    assert_eq!((status, &object["outcome"]), (5, &json!("unreadable")));
    assert_eq!(weights(&object)[..2], remainders(&rule)[..2]);
    let outcomes: Vec<&Value> = object["images"]
        .as_array()
        .expect("a list")
        .iter()
        .map(|image| &image["outcome"])
        .collect();
    assert_eq!(outcomes, ["done", "refused", "unreadable"]);
    assert_eq!(object["images"][1]["number"], 1);
}

#[test]
fn without_entries_nothing_is_learnt() {
    const NOTHING: &str = "nothing can be learnt: no directory that was read has a valid entry";
    let invalid = vec![
        Line { flags: 0xFFFE, ..line(b"A") },
        Line { length: 0, ..line(b"B") },
        Line { length: 26, ..line(b"C") },
    ];
    let folder = with(&planted(&[], vec![invalid]).1);
    fails_with(7, &["rule", &folder.text("disk")], NOTHING);
    let (object, status) = object(&[&folder.text("disk")]);
    assert_eq!((status, &object["outcome"]), (7, &json!("absent")));
    assert_eq!((&object["sentence"], &object["weights"]), (&json!(NOTHING), &Value::Null));
    assert_eq!(object["images"][0]["partitions"][0]["directories"], 1);
}

#[test]
fn a_partition_without_root_has_its_other_directories_read() {
    let mut rng = Rng::new(7);
    let rule = random_rule(&mut rng);
    let below = lines(&mut rng, 60, 1..=3);
    let (_, mut image) = planted(&rule, vec![lines(&mut rng, 60, 5..=8), below]);
    set_root(&mut image, FIRST, 0);
    // The first directory is still one by its description.
    let all = learnt(&image);
    assert_eq!((&all["number"], &all["entries"]), (&Value::Null, &json!(120)));
    assert_eq!(weights(&all)[..9], remainders(&rule)[..9]);
    let image_of_it = &all["images"][0];
    assert_eq!((&image_of_it["outcome"], &image_of_it["sentence"]), (&json!("done"), &Value::Null));
    const ROOTLESS: &str = "the partition at block 6 has no root directory: its RootDirectoryID is nil; its directories are \
        found by their file type";
    assert_eq!(image_of_it["partitions"][0]["rootless"], ROOTLESS);
    let folder = with(&image);
    let (status, _, err) = said(&folder, "rule FOLDER/disk");
    assert_eq!((status, err), (0, format!("FOLDER/disk: {ROOTLESS}\n")));
    // Where no rule comes of it, there is nothing to learn from.
    let (_, mut image) = planted(&rule, vec![Vec::new()]);
    set_root(&mut image, FIRST, 0);
    let (status, _, err) = said(&with(&image), "rule FOLDER/disk");
    let nothing = "nothing can be learnt: no directory that was read has a valid entry";
    assert_eq!((status, err), (7, format!("FOLDER/disk: {ROOTLESS}\ntapermoss: {nothing}\n")));
}

#[test]
fn what_is_no_partition_or_no_file_is_passed_over() {
    let mut rng = Rng::new(11);
    let (_, mut image) =
        planted(&[9; 26], vec![lines(&mut rng, 20, 1..=3), lines(&mut rng, 20, 1..=3)]);
    // The second directory has the wrong number of blocks in use.
    set_word(&mut image, FIRST + 2, 249, 99);
    let folder = with(&image);
    let (status, _, err) = said(&folder, "rule FOLDER/disk");
    assert_eq!(status, 0);
    assert_eq!(err, "FOLDER/disk: block 8 is a malformed file block, which is passed over\n");
    let (malformed, _) = object(&[&folder.text("disk")]);
    assert_eq!(malformed["entries"], 20);
    assert_eq!(malformed["images"][0]["partitions"][0]["malformed"], json!([8]));
    // The device's table, at word 122 of block 0, lists blocks 6 and 300.
    let lda = |block| reference::lbn_to_lda(FLOPPY, block).a.to_le_bytes();
    set_bytes(&mut image, 0, 122, &[lda(6), lda(300)].concat());
    folder.put("disk", &image);
    let (object, status) = object(&[&folder.text("disk")]);
    assert_eq!((status, &object["number"], &object["entries"]), (1, &json!(2), &json!(20)));
    assert_eq!(
        object["sentence"],
        "refused (2): the table lists block 300, at which no good partition starts"
    );
    let first = ["--partition", "6"].as_slice();
    let one = printed(&[&["rule", &folder.text("disk")], first].concat());
    assert!(one.contains("# 20 entries of 1 directory in 1 image: 20 agree, 0 do not\n"), "{one}");
}

#[test]
fn directories_are_the_root_and_what_says_that_it_is_one() {
    let mut rng = Rng::new(8);
    let mut nodes: Vec<Node> =
        (0..4).map(|_| Node::directory(lines(&mut rng, 10, 2..=4))).collect();
    for (node, sort) in nodes.iter_mut().zip([0, DIRECTORY, 0, 0x0103]) {
        node.sort = sort;
    }
    let tree = Tree { rule: vec![7; 26], nodes };
    let object = learnt(&plant(&tree, FLOPPY, 432, FIRST, 431));
    assert_eq!((&object["entries"], &object["directories"]), (&json!(20), &json!(2)));
}

#[test]
fn odd_names_are_escaped_and_the_rule_may_be_given_back() {
    let mut lines: Vec<Line> = (b'A'..=b'Z').map(|letter| line(&[letter])).collect();
    lines.push(Line { stand: Stand::Wrong, ..line(b"\x1b\xff\\") });
    lines.extend([line(b"XYZ"), line(b"ZYX"), line(b"XXY"), line(b"QRS"), line(b"AAAA")]);
    let folder = with(&planted(&[2; 26], vec![lines]).1);
    let (_, out, _) = said(&folder, "rule FOLDER/disk");
    // 3 * 2 + 2 * (27 + 255 + 92) = 754 = 24 * 31 + 10, and the first block that is not selected is 0.
    assert!(out.contains("# 6 7 0 0 0 10 \\x1b\\xff\\\\ FOLDER/disk\n"), "{out}");
    folder.put("rule", printed(&["rule", &folder.text("disk")]).as_bytes());
    let tree = |rule: &[&str]| printed(&[&["tree", &folder.text("disk")], rule].concat());
    let learnt = tree(&["--rule", &folder.text("rule")]);
    assert_eq!(learnt, tree(&["--rule", &[2; 26].map(|weight: u8| weight.to_string()).join(",")]));
    assert_ne!(learnt, tree(&[]), "the wrong entry is not taken");
}
