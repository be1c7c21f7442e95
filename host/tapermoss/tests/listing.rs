//! The paths in `tapermoss files`: those by which the tree leads to a file, beside the name in its description.

mod common;

use common::planted::{chain, letters, line, Planted};
use common::{hex, printed, set_bytes, Folder, FLOPPY};
use reference::tree_sample::{set_root, Node, Stand, Tree};
use serde_json::{json, Value};

/// Gives a file of an image a name, in its description.
fn name(image: &mut [u8], f: u32, name: &[u8]) {
    set_bytes(image, f, 11, &[&[name.len() as u8], name].concat());
}

fn listed(folder: &Folder, image: &[u8]) -> (String, Value) {
    let image = folder.put("disk", image);
    let object = printed(&["files", &image, "--json"]);
    (printed(&["files", &image]), serde_json::from_str(&object).expect("JSON"))
}

fn path(path: &str) -> Value {
    json!({"path": path, "path_bytes": hex(path.as_bytes())})
}

#[test]
fn a_path_is_printed_where_the_name_says_another_thing() {
    let mut image = letters().image;
    name(&mut image, 8, b"Letters");
    name(&mut image, 9, b"first.text");
    name(&mut image, 10, b"boat.drawing");
    let (text, object) = listed(&Folder::new(), &image);
    let expected = "   LBN  FileID   kind  blocks  in use  name          path
     7   57351      0       1       2  -             -
     8   57352      1       1       2  Letters
     9   57353      2       3       4  first.text    letters>first.text
    10   57354      3      70      72  boat.drawing  House.drawing
";
    assert_eq!(text, expected);
    let paths: Vec<&Value> =
        object["files"].as_array().expect("a list").iter().map(|file| &file["paths"]).collect();
    let expected = [
        json!([]),
        json!([path("letters")]),
        json!([path("letters>first.text")]),
        json!([path("House.drawing")]),
    ];
    assert_eq!(paths, expected.iter().collect::<Vec<_>>());
    assert_eq!((&object["paths_remark"], &object["paths_complete"]), (&json!(null), &json!(true)));
}

#[test]
fn case_makes_no_difference_and_all_else_does() {
    let same: [&[u8]; 2] = [b"letters>first.text", b"LETTERS>First.Text"];
    let others: [&[u8]; 8] = [
        b"first.text",
        b"sys:boot>letters>first.text",
        b":>letters>first.text",
        b"sys:letters>first.text",
        b"boot>letters>first.text",
        b"letters>first.text>",
        b"letters>first.text ",
        b"xletters>first.text",
    ];
    let folder = Folder::new();
    let row = |bytes: &[u8]| {
        let mut image = letters().image;
        name(&mut image, 9, bytes);
        let (text, _) = listed(&folder, &image);
        text.lines().find(|line| line.starts_with("     9 ")).expect("its row").to_string()
    };
    for name in same {
        let text = String::from_utf8_lossy(name);
        assert!(row(name).ends_with(&format!("       4  {text}")), "{text}");
    }
    for name in others {
        let text = String::from_utf8_lossy(name);
        let row = row(name);
        // A name with a device before it, or with nothing behind its last `>`, is one that describe refuses.
        let mark = if text.contains(':') || text.ends_with('>') { "!  " } else { "" };
        assert!(
            row.starts_with(&format!("     9   57353      2       3       4  {mark}{text}  ")),
            "{row}"
        );
        assert!(row.ends_with("  letters>first.text"), "{row}");
    }
}

#[test]
fn a_file_that_no_path_leads_to_has_a_stroke() {
    // Nothing names file 9, and file 10 only an entry that an earlier one of its name hides.
    let lines = vec![line("a", 1), line("A", 3)];
    let nodes = vec![Node::directory(lines), Node::file(1), Node::file(1), Node::file(1)];
    let mut image = Planted::of(Tree { rule: Vec::new(), nodes }).image;
    name(&mut image, 9, b"letters>lost.text");
    name(&mut image, 10, b"A");
    let (text, object) = listed(&Folder::new(), &image);
    let rows: Vec<&str> = text.lines().skip(1).collect();
    let ends = [
        "  -                  -",
        "  -                  a",
        "  letters>lost.text  -",
        "  A                  -",
    ];
    for (row, end) in rows.iter().zip(ends) {
        assert!(row.ends_with(end), "{text}");
    }
    assert_eq!(rows.len(), 4, "{text}");
    assert_eq!(
        (&object["files"][2]["paths"], &object["files"][3]["paths"]),
        (&json!([]), &json!([]))
    );
    assert_eq!(object["paths_complete"], true);
}

#[test]
fn a_file_with_several_paths_has_them_all_in_json() {
    let lines = vec![line("one", 1), line("two", 1), line("D", 2), line("three", 1)];
    let nodes = vec![
        Node::directory(lines),
        Node::file(1),
        Node::directory(vec![line("four", 1), line("root.text", 3)]),
        Node::file(0),
    ];
    let mut image = Planted::of(Tree { rule: Vec::new(), nodes }).image;
    name(&mut image, 8, b"Two");
    name(&mut image, 10, b"D>root.text");
    let (text, object) = listed(&Folder::new(), &image);
    let lines: Vec<&str> = text.lines().collect();
    assert!(lines[2].ends_with("  Two          one (and 2 more)"), "{text}");
    assert!(lines[3].ends_with("  -            D"), "{text}");
    assert!(lines[4].ends_with("  D>root.text"), "{text}");
    let all = json!([path("one"), path("two"), path("D>four"), path("three")]);
    assert_eq!(object["files"][1]["paths"], all);
}

#[test]
fn without_a_tree_the_files_are_listed_and_it_is_said_why_they_have_no_paths() {
    let folder = Folder::new();
    let mut rootless = letters().image;
    set_root(&mut rootless, 6, 0);
    let images = [
        (
            rootless,
            "no paths: refused (6): the partition at block 6 has no root directory: its RootDirectoryID is nil",
        ),
    ];
    for (image, remark) in images {
        let (text, object) = listed(&folder, &image);
        let files = reference_files(&image);
        assert_eq!(text.lines().count(), 1 + files.len() + 1, "{text}");
        assert!(text.starts_with("   LBN  FileID   kind  blocks  in use  name\n"), "{text}");
        assert!(text.ends_with(&format!("\n{remark}\n")), "{text}");
        let found: Vec<u64> = object["files"]
            .as_array()
            .expect("a list")
            .iter()
            .map(|file| {
                assert_eq!(file["paths"], json!([]));
                file["lbn"].as_u64().expect("a block")
            })
            .collect();
        assert_eq!(found, files);
        assert_eq!((&object["outcome"], &object["paths_remark"]), (&json!("done"), &json!(remark)));
        assert_eq!(object["paths_complete"], false);
    }
}

#[test]
fn of_a_tree_that_is_too_deep_the_paths_before_that_are_known() {
    let mut deep = chain(10);
    // One more file, which an entry behind that of the next directory names.
    deep.tree.nodes.push(Node::file(1));
    deep.tree.nodes[0].lines.push(line("behind", 10));
    let mut image = Planted::of(deep.tree).image;
    name(&mut image, 8, b"d");
    let (text, object) = listed(&Folder::new(), &image);
    let rows: Vec<&str> = text.lines().collect();
    assert!(rows[0].ends_with("  name  path"), "{text}");
    assert!(rows[1].starts_with("     7 ") && rows[1].ends_with("  -     ?"), "{text}");
    assert!(rows[2].starts_with("     8 ") && rows[2].ends_with("  d"), "{text}");
    assert!(rows[3].starts_with("     9 ") && rows[3].ends_with("  -     D>D"), "{text}");
    assert!(
        rows[9].starts_with("    15 ") && rows[9].ends_with("  -     D>D>D>D>D>D>D>D"),
        "{text}"
    );
    assert!(rows[10].starts_with("    16 ") && rows[10].ends_with("  -     ?"), "{text}");
    assert!(rows[11].starts_with("    17 ") && rows[11].ends_with("  -     ?"), "{text}");
    let remark = "not all paths: refused (11): the directory at block 16 is of the tenth level, and only nine are looked into";
    assert_eq!(rows[12..], [remark]);
    assert_eq!(
        (&object["paths_complete"], &object["paths_remark"]),
        (&json!(false), &json!(remark))
    );
    assert_eq!(
        (&object["files"][2]["paths"], &object["files"][9]["paths"]),
        (&json!([path("D>D")]), &json!([]))
    );
}

/// The files that the reference finds.
fn reference_files(image: &[u8]) -> Vec<u64> {
    let next = |after: &u32| {
        let answer = reference::next_file(image, FLOPPY, 6, *after);
        (answer.outcome == reference::DONE).then_some(answer.a)
    };
    std::iter::successors(next(&0), next).map(u64::from).collect()
}

#[test]
fn the_paths_are_those_of_the_rule() {
    let mut rule = vec![0; 26];
    rule[0] = 1;
    let mut wrong = line("wrong", 1);
    wrong.stand = Stand::Block(1);
    let nodes = vec![Node::directory(vec![line("good", 1), wrong]), Node::file(0)];
    let planted = Planted::of(Tree { rule, nodes });
    let folder = Folder::new();
    let (_, object) = listed(&folder, &planted.image);
    assert_eq!(object["files"][1]["paths"], json!([path("wrong"), path("good")]));
    let rule = planted.rule().expect("it is known");
    let text = printed(&["files", &folder.text("disk"), "--rule", &rule, "--json"]);
    let object: Value = serde_json::from_str(&text).expect("JSON");
    assert_eq!(object["files"][1]["paths"], json!([path("good")]));
}

#[test]
fn of_a_tree_that_is_too_large_not_all_paths_are_known_and_it_is_said() {
    // Fifteen entries that name the next directory, five deep. With the first entry of the root and what is below it these are
    // 1 + 15 + 15^2 + 15^3 + 15^4 = 54,241; so the 65,536th entry is one below the second.
    let lines = |next: usize| (0..15).map(|i| line(&format!("D{i}"), next)).collect();
    let mut nodes: Vec<Node> = (1..=5).map(|next| Node::directory(lines(next))).collect();
    nodes.push(Node::file(0));
    let (text, object) =
        listed(&Folder::new(), &Planted::of(Tree { rule: Vec::new(), nodes }).image);
    let remark = "not all paths: the tree has more than 65536 entries";
    assert!(text.ends_with(&format!("\n{remark}\n")), "{text}");
    assert_eq!(
        (&object["paths_complete"], &object["paths_remark"]),
        (&json!(false), &json!(remark))
    );
    assert!(text.lines().nth(1).expect("the root").ends_with("  -     ?"), "{text}");
    assert!(text.lines().nth(2).expect("a row").ends_with("  D0 (and 1 more)"), "{text}");
}
