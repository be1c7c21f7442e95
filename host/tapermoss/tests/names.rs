//! Names in descriptions: what `describe` refuses with number 12, in which words, and that nothing is written then; and which
//! names `files` marks.

mod common;

use common::{fails, malformed, misused, object, printed, sample, set_bytes, Folder, FLOPPY};
use reference::sample::named;
use serde_json::{json, Value};

/// Bad names as a command line can have them, with the rule, the place and the sentence.
fn bad() -> Vec<(String, u32, u32, String)> {
    let no_name = |letter, place| {
        format!("character {place} of the name is \"{letter}\", which no name may have")
    };
    let of =
        |name: &str, rule, place, told: &str| (name.to_string(), rule, place, told.to_string());
    let mut bad = vec![
        of("", 1, 0, "the name has no characters"),
        of("ab\x1f", 2, 3, "character 3 of the name is a control character (31)"),
        of("\x7fab", 2, 1, "character 1 of the name is a control character (127)"),
        of("sys<a", 3, 4, &no_name('<', 4)),
        of("/a", 3, 1, &no_name('/', 1)),
        of("sys:", 3, 4, &no_name(':', 4)),
        of("letters>", 4, 8, "the name ends in \">\""),
        of(">.>a", 5, 1, "\">.>\" stands at character 1 of the name"),
        of("a>b>..>c", 5, 4, "\">..>\" stands at character 4 of the name"),
    ];
    for length in [81, 82, 255, 256, 300] {
        let told = format!("the name has {length} characters, and 80 is the most");
        bad.push(("n".repeat(length), 1, 0, told));
    }
    bad
}

/// A folder with the sample, `disk`, which stays as it is and alone.
fn must_be_alone(folder: &Folder, names: &[&str]) {
    assert_eq!(folder.names(), names);
    assert!(folder.read("disk") == sample(), "the image stays");
}

#[test]
fn a_bad_name_is_refused_and_nothing_is_written() {
    let folder = Folder::new();
    let image = folder.put("disk", &sample());
    let output = folder.text("output");
    for (name, rule, place, told) in bad() {
        let command = ["describe", &image, "--file", "8", "--name", &name];
        let sentence = format!("refused (12): {told}");
        for target in [&[][..], &["--in-place"], &["--output", &output], &["--limit", "0"]] {
            fails(&[&command, target].concat(), &sentence);
        }
        let found = object(&command);
        let expected = json!({
            "outcome": "refused", "number": 12, "block": null, "sentence": sentence,
            "name_rule": rule, "name_place": place,
        });
        assert_eq!(found, expected);
        must_be_alone(&folder, &["disk"]);
    }
}

#[test]
fn a_bad_name_in_a_whole_description_is_refused_alike() {
    let folder = Folder::new();
    let image = folder.put("disk", &sample());
    let mut long = named(b"n");
    long[22] = 200;
    let others: [([u8; 104], &str); 4] = [
        ([0; 104], "the name has no characters"),
        ([1; 104], "character 1 of the name is a control character (1)"),
        (long, "the name has 200 characters, and 80 is the most"),
        (named(b"\xe4\x00"), "character 2 of the name is a control character (0)"),
    ];
    let given = bad().into_iter().filter(|(name, ..)| name.len() <= 81);
    let given = given.map(|(name, _, _, told)| (named(name.as_bytes()), told));
    let others = others.map(|(bytes, told)| (bytes, told.to_string()));
    for (description, told) in given.chain(others) {
        let bytes = folder.put("bytes", &description);
        for target in [&[][..], &["--in-place"]] {
            let command = ["describe", &image, "--file", "8", "--bytes", &bytes];
            fails(&[&command, target].concat(), &format!("refused (12): {told}"));
        }
        must_be_alone(&folder, &["bytes", "disk"]);
    }
}

#[test]
fn twelve_comes_after_a_wrong_partition_and_before_a_malformed_file() {
    let folder = Folder::new();
    let broken = folder.put("malformed", &malformed());
    let named = ["--file", "300", "--name", "a/b"];
    let told = "refused (12): character 2 of the name is \"/\", which no name may have";
    fails(&[&["describe", &broken], &named[..]].concat(), told);
    fails(
        &[&["describe", &broken, "--partition", "5"], &named[..]].concat(),
        "refused (2): no good partition starts at block 5",
    );
}

#[test]
fn good_names_are_set() {
    let folder = Folder::new();
    let longest = "n".repeat(80);
    for name in ["a", ">a", ">>a", ".", "..>a", "a>..", "a>...>b", " ~", "a\\b", &longest] {
        let image = folder.put("disk", &sample());
        printed(&["describe", &image, "--file", "8", "--name", name, "--in-place"]);
        let mut expected = sample();
        let answer =
            reference::describe(&mut expected, FLOPPY, 6, 8, &named(name.as_bytes()), u32::MAX);
        assert!(answer.made == 1 && folder.read("disk") == expected, "{name}");
    }
    let bytes = folder.put("bytes", &named(b"\x80\xff"));
    let image = folder.put("disk", &sample());
    printed(&["describe", &image, "--file", "8", "--bytes", &bytes, "--in-place"]);
    assert_eq!(object(&["files", &image])["files"][1]["name_bytes"], "80ff");
}

#[test]
fn a_name_on_the_command_line_is_ascii() {
    let folder = Folder::new();
    let image = folder.put("disk", &sample());
    let told = misused(&["describe", &image, "--file", "8", "--name", "Br\u{fc}cke"]);
    assert!(told.contains("one with other bytes is set with --bytes"), "{told}");
    must_be_alone(&folder, &["disk"]);
}

/// The sample with these names in its three files, laid by hand.
fn laid(names: [&[u8]; 3]) -> Vec<u8> {
    let mut image = sample();
    for (f, name) in (7..).zip(names) {
        set_bytes(&mut image, f, 11, name);
    }
    image
}

#[test]
fn files_marks_a_name_that_describe_would_refuse() {
    let folder = Folder::new();
    let image = folder.put("disk", &laid([b"\x03a:b", b"\x02ab", b"\xc8zz"]));
    let text = printed(&["files", &image]);
    let lines: Vec<&str> = text.lines().collect();
    assert_eq!(lines[0], "   LBN  FileID   kind  blocks  in use     name");
    assert!(lines[1].ends_with("       4  !  a:b"), "{text}");
    assert!(lines[2].ends_with("       1     ab"), "{text}");
    assert!(lines[3].ends_with("      72  !  -"), "{text}");
    assert!(lines[4].starts_with("! is a name that `describe` would refuse (12)"), "{text}");
    let found = object(&["files", &image]);
    let of = |i: usize| {
        ["name", "name_rule", "name_place", "name_remark"].map(|field| &found["files"][i][field])
    };
    let stroke = "character 2 of the name is \":\", which no name may have";
    assert_eq!(of(0), [&json!("a:b"), &json!(3), &json!(2), &json!(stroke)]);
    assert_eq!(of(1), [&json!("ab"), &Value::Null, &Value::Null, &Value::Null]);
    let long = "the name has 200 characters, and 80 is the most";
    assert_eq!(of(2), [&Value::Null, &json!(1), &json!(0), &json!(long)]);
}

/// What `create` leaves is no name, and needs no mark.
#[test]
fn a_file_without_a_name_has_no_mark() {
    let folder = Folder::new();
    let image = folder.put("disk", &laid([b"\x00", b"\x02ab", b"\x00abc"]));
    let text = printed(&["files", &image]);
    assert!(!text.contains('!') && text.contains("in use  name\n"), "{text}");
    assert!(text.contains("       4  -\n"), "{text}");
    let first = &object(&["files", &image])["files"][0];
    let found = ["name", "name_rule", "name_place", "name_remark"].map(|field| &first[field]);
    let told = "the name has no characters";
    assert_eq!(found, [&Value::Null, &json!(1), &json!(0), &json!(told)]);
}

/// What the tool shows of a name on the disk is what `describe` says of it.
#[test]
fn a_marked_name_is_one_that_describe_refuses() {
    let folder = Folder::new();
    for name in ["a:b", "ab", "x>", ">..>x", "..", "a\x01"] {
        let laid_bytes = [&[name.len() as u8], name.as_bytes()].concat();
        let image = folder.put("disk", &laid([&laid_bytes, b"\x01x", b"\x01x"]));
        let file = &object(&["files", &image])["files"][0];
        let again =
            object(&["describe", &image, "--file", "7", "--name", name, "--limit", "0", "--force"]);
        assert_eq!(file["name_rule"], again["name_rule"], "{name:?}");
        assert_eq!(file["name_place"], again["name_place"], "{name:?}");
        assert_eq!(file["name_rule"].is_null(), again["outcome"] == "done", "{name:?}");
    }
}
