//! The paths that `tree` and `files` give: each leads back to its entry, and where none does it is said why.

mod common;

use common::planted::{dangling, line, Planted, S};
use common::{hex, misused, object, printed, printed_bytes, Folder};
use perq::{Drive, Rule, Target};
use reference::random_tree::random_tree;
use reference::sample::Rng;
use reference::tree_sample::{Line, Names, Node, Tree};
use serde_json::{json, Value};
use std::collections::HashSet;

/// The bytes that a field has in hex.
fn bytes(field: &Value) -> Vec<u8> {
    let text = field.as_str().expect("hex").as_bytes();
    let digit = |digit: u8| char::from(digit).to_digit(16).expect("a digit") as u8;
    text.chunks(2).map(|pair| 16 * digit(pair[0]) + digit(pair[1])).collect()
}

fn list(field: &Value) -> &[Value] {
    field.as_array().expect("a list")
}

/// Holds a complete tree to what the library's look-up finds: every path leads to what its entry names, no two entries have
/// the same, and what leads somewhere is a path of one of them. Counts the entries without a path by its reason.
fn hold(planted: &Planted, found: &Value, seen: &mut [u32; 3]) {
    let rule = Rule::from_bytes(&planted.tree.rule).expect("a rule");
    let led = |path: &[u8]| {
        perq::look_up(&planted.image, Drive::Floppy, S, &rule, path).expect("it is not too deep")
    };
    let mut paths = HashSet::new();
    let mut above: Vec<Vec<u8>> = Vec::new();
    let mut without: Vec<Vec<u8>> = Vec::new();
    for entry in list(&found["entries"]) {
        above.truncate(entry["level"].as_u64().expect("a level") as usize - 1);
        above.push(bytes(&entry["name_bytes"]));
        let joined = above.join(&b'>');
        let reasons =
            ["an earlier entry has this name", "'>' in the name", "none leads to its directory"];
        match reasons.iter().position(|reason| entry["no_path"] == *reason) {
            Some(reason) => {
                assert_eq!((&entry["path"], &entry["path_bytes"]), (&json!(null), &json!(null)));
                without.push(joined);
                seen[reason] += 1;
            }
            None => {
                assert_eq!(
                    (&entry["no_path"], bytes(&entry["path_bytes"])),
                    (&json!(null), joined.clone())
                );
                let target =
                    entry["lbn"].as_u64().map_or(Target::Dangling, |f| Target::File(f as u32));
                assert_eq!(led(&joined), Some(target), "{}", entry["path"]);
                assert!(paths.insert(joined.to_ascii_uppercase()), "{}", entry["path"]);
            }
        }
    }
    for joined in without {
        assert!(led(&joined).is_none() || paths.contains(&joined.to_ascii_uppercase()));
    }
}

#[test]
fn a_path_leads_back_and_what_has_none_is_not_reached() {
    let (mut rng, mut seen, mut trees) = (Rng::new(31), [0; 3], 0);
    for _ in 0..150 {
        let levels = 2 + rng.below(6);
        let planted = Planted::of(random_tree(&mut rng, levels));
        let folder = Folder::new();
        let image = folder.put("disk", &planted.image);
        let rule = planted.rule();
        let rule: Vec<&str> = rule.iter().flat_map(|rule| ["--rule", rule]).collect();
        let found = object(&[&["tree", &image], &rule[..]].concat());
        if found["complete"] != true {
            continue;
        }
        hold(&planted, &found, &mut seen);
        let listed = object(&[&["files", &image], &rule[..]].concat());
        for file in list(&listed["files"]) {
            let same = |entry: &&Value| entry["lbn"] == file["lbn"] && entry["path"] != json!(null);
            let expected: Vec<&Value> = list(&found["entries"])
                .iter()
                .filter(same)
                .map(|entry| &entry["path_bytes"])
                .collect();
            let paths: Vec<&Value> =
                list(&file["paths"]).iter().map(|path| &path["path_bytes"]).collect();
            assert_eq!(paths, expected);
        }
        trees += 1;
    }
    assert!(trees > 50 && seen.iter().all(|&times| times > 5), "{trees} {seen:?}");
}

/// A root with names that could be taken for others: `dir` with `inner` in it, the two joined in one name, `dup` three times,
/// twice with something in it, and names with blanks.
fn mistakable() -> Planted {
    let named = |name: &[u8], node| Line::new(name, Names::Node(node));
    let root = vec![
        named(b"dir", 1),
        named(b"dir>inner", 3),
        named(b"dup", 2),
        named(b"DUP", 1),
        dangling("Dup"),
        named(b"a>", 1),
        named(b"  two", 3),
        named(b"end ", 4),
        named(b"end", 5),
        named(b" ", 6),
    ];
    let mut nodes = vec![Node::directory(root), Node::directory(vec![line("inner", 2)])];
    nodes.extend((1..=5).map(Node::file));
    Planted::of(Tree { rule: Vec::new(), nodes })
}

#[test]
fn a_name_is_shown_so_that_it_is_no_other() {
    let folder = Folder::new();
    let image = folder.put("disk", &mistakable().image);
    let text = "\
the root directory is file 7

   LBN  name
     8  dir>
     9    inner
    10  dir\\x3einner  (no path: '>' in the name)
     9  dup
     8  DUP>  (no path: an earlier entry has this name)
     9    inner  (no path: none leads to its directory)
     -  Dup  (dangling: it holds nil; no path: an earlier entry has this name)
     8  a\\x3e>  (no path: '>' in the name)
     9    inner  (no path: none leads to its directory)
    10  \\x20 two
    11  end\\x20
    12  end
    13  \\x20
";
    assert_eq!(printed(&["tree", &image]), text);
    let found = object(&["tree", &image]);
    let entry = &found["entries"][9];
    assert_eq!(
        (&entry["name"], &entry["name_bytes"]),
        (&json!("\\x20 two"), &json!(hex(b"  two")))
    );
    assert_eq!(
        (&entry["path"], &entry["path_bytes"]),
        (&json!("\\x20 two"), &json!(hex(b"  two")))
    );
    let (name, bytes) = (&found["entries"][2]["name"], &found["entries"][2]["name_bytes"]);
    assert_eq!((name, bytes), (&json!("dir\\x3einner"), &json!(hex(b"dir>inner"))));
}

#[test]
fn what_is_shown_is_taken_back() {
    let folder = Folder::new();
    let image = folder.put("disk", &mistakable().image);
    let paths =
        [("dir>inner", 1), ("dup", 1), ("\\x20 two", 2), ("end\\x20", 3), ("end", 4), ("\\x20", 5)];
    for (path, blocks) in paths {
        assert_eq!(printed_bytes(&["cat", &image, "--path", path]).len(), 512 * blocks, "{path}");
    }
    let found = object(&["files", &image]);
    let shown = |f: usize| found["files"][f]["paths"][0]["path"].as_str();
    assert_eq!([3, 4, 5, 6].map(shown), ["\\x20 two", "end\\x20", "end", "\\x20"].map(Some));
    assert!(printed(&["files", &image]).contains("  -     \\x20 two\n"));
    common::fails_with(
        7,
        &["cat", &image, "--path", "end  > x"],
        "the path 'end \\x20>\\x20x' is not there: the root directory (block 7) has no entry 'end \\x20'",
    );
    // A name with a '>' in it is not given by the path that looks like it.
    for path in ["dir\\x3einner", "a\\x3E", "dir>\\x3e"] {
        let told = misused(&["cat", &image, "--path", path]);
        let sentence = "no path leads to an entry with a '>' in its name, which is what \\x3e stands for; name the file with --file LBN";
        assert_eq!(told, format!("tapermoss: {sentence}\n"));
    }
    assert!(printed_bytes(&["cat", &image, "--path", "dir>\\x69nner"]).len() == 512);
}
