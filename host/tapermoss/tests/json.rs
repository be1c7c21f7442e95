//! `--json` on every command, whatever comes of it: one object with the four fields, and the exit status that its outcome
//! has in the one table of statuses, which `check`, `repair` and `batch` share.

mod common;

use common::planted::{chain, letters, line, Planted};
use common::{full, hex, malformed, pipe, sample, tool, unsound, Folder, FLOPPY};
use reference::sample::scattered;
use reference::tree_sample::{Node, Tree};
use serde_json::{json, Value};
use std::collections::BTreeSet;
use std::ffi::OsStr;
use std::fs;
use std::os::unix::ffi::OsStrExt;
use std::process::Stdio;

/// The exit status of each outcome.
const STATUSES: [(&str, i32); 9] = [
    ("done", 0),
    ("sound", 0),
    ("refused", 1),
    ("wrong use", 2),
    ("repaired", 3),
    ("set aside", 4),
    ("unreadable", 5),
    ("another file", 6),
    ("absent", 7),
];

const COMMANDS: [&str; 17] = [
    "partitions",
    "check",
    "files",
    "tree",
    "rule",
    "cat",
    "show",
    "map",
    "repair",
    "batch",
    "create",
    "write",
    "describe",
    "destroy",
    "fresh",
    "address",
    "tour",
];

/// A directory whose entries stand by the rule that a name's hash is its length: of 1 to 9 letters, in blocks 1 to 9.
fn by_length() -> Vec<u8> {
    let mut rule = vec![0; 26];
    rule[0] = 1;
    let lines = (1..=9).map(|length| line(&"x".repeat(length), 1)).collect();
    Planted::of(Tree { rule, nodes: vec![Node::directory(lines), Node::file(0)] }).image
}

/// A folder with an image of every kind; `images` is a folder in it.
fn all_kinds() -> Folder {
    let folder = Folder::new();
    folder.put("disk", &sample());
    folder.put("unsound", &unsound());
    folder.put("malformed", &malformed());
    folder.put("full", &full());
    folder.put("tight", &scattered(FLOPPY, 432, 6, 11, &[3], 7));
    folder.put("letters", &letters().image);
    folder.put("deep", &chain(10).image);
    folder.put("by-length", &by_length());
    folder.put("rule", b"1,2,3");
    folder.put("zeros", &[0; 528 * 432]);
    folder.put("ragged", &[0; 1000]);
    folder.put("empty", b"");
    folder.put("odd", &scattered(0, 40, 1, 39, &[3, 0], 7));
    folder.put("short", &[1; 90]);
    folder.put("nameless", &[0; 104]);
    folder.put("big", &[1; 512 * 400]);
    for name in ["images", "bare"] {
        fs::create_dir(folder.path(name)).expect("a folder");
    }
    fs::write(folder.path("images/disk"), malformed()).expect("a file");
    folder
}

/// The words of a line; those that start with @ are paths in the folder.
fn words(folder: &Folder, line: &str) -> Vec<String> {
    let word =
        |word: &str| word.strip_prefix('@').map_or(word.to_string(), |name| folder.text(name));
    line.split_whitespace().map(word).collect()
}

/// Runs the tool; answers the one object that it prints, which has the four fields, and the exit status.
#[track_caller]
fn object<S: AsRef<OsStr>>(arguments: &[S]) -> (Value, i32) {
    let told: Vec<&OsStr> = arguments.iter().map(S::as_ref).collect();
    let output = tool(&[]).args(arguments).stdin(Stdio::null()).output().expect("the tool runs");
    let status = output.status.code().expect("it ends by itself");
    let object: Value = serde_json::from_slice(&output.stdout)
        .unwrap_or_else(|error| panic!("{told:?}: {error}: {output:?}"));
    let fields = object.as_object().unwrap_or_else(|| panic!("{told:?}: {object}"));
    for name in ["outcome", "number", "block", "sentence"] {
        assert!(fields.contains_key(name), "{told:?} has no {name}: {object}");
    }
    (object, status)
}

/// The four fields agree with each other and with the exit status.
#[track_caller]
fn agree(object: &Value, status: i32) {
    let outcome = object["outcome"].as_str().expect("a text");
    assert!(STATUSES.contains(&(outcome, status)), "{outcome} and {status}: {object}");
    let well = matches!(status, 0 | 3);
    assert_eq!(object["sentence"].is_null(), well, "a sentence unless all is well: {object}");
    let sentence = object["sentence"].as_str().unwrap_or_default();
    let whole = !sentence.ends_with(':') && !sentence.contains('\n');
    assert!(whole && sentence == sentence.trim(), "no sentence: {object}");
    let has_block = object["number"] == 4 || object["number"] == 11;
    assert_eq!(object["block"].is_u64(), has_block, "{object}");
    if let Some(number) = object["number"].as_u64() {
        assert!((1..=12).contains(&number) && matches!(status, 1 | 4), "{object}");
        assert!(sentence.starts_with(&format!("refused ({number}): ")), "{object}");
    }
    assert!(status != 1 || object["number"].is_u64(), "refused without a number: {object}");
    for name in ["name_rule", "name_place"] {
        assert_eq!(object[name].is_u64(), object["number"] == 12, "{object}");
    }
}

/// What comes of a line in a folder of its own, with `--json` before and after the command: the same.
#[track_caller]
fn of_line(line: &str) -> Value {
    let answers = [format!("--json {line}"), format!("{line} --json")].map(|line| {
        let folder = all_kinds();
        let (object, status) = object(&words(&folder, &line));
        agree(&object, status);
        let path = folder.as_ref().to_str().expect("text");
        let text =
            object.to_string().replace(path, "FOLDER").replace(&hex(path.as_bytes()), "BYTES");
        serde_json::from_str::<Value>(&text).expect("JSON")
    });
    assert_eq!(answers[0], answers[1], "{line}");
    answers[0].clone()
}

/// Each command once at least, when all goes well, with a field of its own.
const SUCCESSES: [(&str, &str, &str, &str); 26] = [
    ("partitions @disk", "done", "/partitions/0/first", "6"),
    ("check @disk", "sound", "/partitions/0/files", "3"),
    ("files @disk", "done", "/files/2/blocks", "70"),
    ("files @letters", "done", "/files/2/paths/0/path", "\"letters>first.text\""),
    ("tree @letters", "done", "/entries/1/path", "\"letters>first.text\""),
    ("rule @by-length", "done", "/entries", "9"),
    ("cat @disk --file 9", "done", "/blocks", "70"),
    ("cat @letters --path letters>first.text", "done", "/file", "9"),
    ("show @disk --file 7 --block 0", "done", "/relative", "0"),
    ("show @disk --file 7 --block 0 --raw", "done", "/file", "7"),
    (
        "show --original @malformed --repaired @disk --file 7 --block 0",
        "done",
        "/source",
        "\"repaired\"",
    ),
    (
        "show --original @letters --repaired @empty --path letters>first.text --block 0",
        "done",
        "/source",
        "\"original\"",
    ),
    ("map @disk", "done", "/files", "3"),
    ("repair @unsound", "repaired", "/partitions/0/files", "3"),
    ("repair @disk", "sound", "/written", "null"),
    ("batch @bare", "done", "/images", "[]"),
    ("create @disk", "done", "/file", "84"),
    ("write @disk --file 7 --from @short", "done", "/blocks", "1"),
    ("write @letters --path letters>first.text --from @short", "done", "/file", "9"),
    ("describe @disk --file 7 --name x", "done", "/stores", "1"),
    ("describe @letters --path letters --name x", "done", "/file", "8"),
    ("destroy @disk --file 9", "done", "/stores", "5"),
    ("destroy @letters --path house.drawing", "done", "/file", "10"),
    ("fresh @new --drive 3", "done", "/last", "431"),
    ("address --drive 1 lbn 210", "done", "/lbn", "210"),
    ("tour", "done", "/wrong", "[]"),
];

#[test]
fn every_command_answers_its_success_with_an_object() {
    let mut commands = BTreeSet::new();
    for (line, outcome, field, value) in SUCCESSES {
        let object = of_line(line);
        assert_eq!(object["outcome"], outcome, "{line}: {object}");
        assert_eq!([&object["number"], &object["block"]], [&Value::Null; 2], "{line}");
        let value: Value = serde_json::from_str(value).expect("JSON");
        assert_eq!(object.pointer(field), Some(&value), "{line}: {object}");
        commands.extend(line.split(' ').next());
    }
    assert_eq!(commands, BTreeSet::from(COMMANDS));
}

/// What the library refuses or a person must decide, with the number, and the block that is meant under 4 and 11.
const REFUSALS: [(&str, &str, u64); 36] = [
    ("partitions @ragged", "refused", 1),
    ("partitions @empty", "refused", 1),
    ("check @empty", "refused", 1),
    ("check @zeros", "refused", 2),
    ("check @disk --partition 5", "refused", 2),
    ("check @unsound", "refused", 5),
    ("check @malformed", "set aside", 4),
    ("check @full", "refused", 5),
    ("files @disk --partition 5", "refused", 2),
    ("tree @disk", "refused", 6),
    ("tree @deep", "refused", 11),
    ("rule @ragged", "refused", 1),
    ("cat @disk --path x", "refused", 6),
    ("cat @deep --path D>D>D>D>D>D>D>D>D>D", "refused", 11),
    ("destroy @disk --path x", "refused", 6),
    ("cat @disk --file 10", "refused", 6),
    ("cat @malformed --file 7", "refused", 4),
    ("show @disk --file 7 --block 32767", "refused", 7),
    ("show --original @malformed --repaired @empty --file 7 --block 0", "refused", 4),
    ("map @disk --partition 5", "refused", 2),
    ("repair @malformed", "set aside", 4),
    ("repair @full", "refused", 9),
    ("repair @disk --partition 5", "refused", 2),
    ("batch @images", "set aside", 4),
    ("create @malformed", "refused", 4),
    ("create @unsound", "refused", 5),
    ("create @tight", "refused", 8),
    ("write @disk --file 7 --from @big", "refused", 8),
    ("write @disk --file 7 --from @short --block 9", "refused", 7),
    ("describe @disk --file 7 --bytes @short", "refused", 3),
    ("describe @disk --file 10 --name x", "refused", 6),
    ("describe @disk --file 7 --name a:b", "refused", 12),
    ("describe @malformed --file 7 --bytes @nameless", "refused", 12),
    ("destroy @unsound --file 7", "refused", 5),
    ("address --drive 1 lbn 48450", "refused", 10),
    ("address --drive 2 fileid 57344", "refused", 10),
];

#[test]
fn a_refusal_has_its_number_and_block() {
    for (line, outcome, number) in REFUSALS {
        let object = of_line(line);
        assert_eq!(object["outcome"], outcome, "{line}: {object}");
        assert_eq!(object["number"], number, "{line}: {object}");
        let block = match number {
            4 => Some(7),
            11 => Some(16),
            _ => None,
        };
        assert_eq!(object["block"].as_u64(), block, "{line}: {object}");
    }
    let numbers: BTreeSet<u64> = REFUSALS.into_iter().map(|(_, _, number)| number).collect();
    assert_eq!(numbers, (1..=12).collect(), "every number");
}

/// What has no number: the system's failures, names that are taken, and blocks and paths that are not there.
const OTHERS: [(&str, &str); 30] = [
    ("partitions @nowhere", "unreadable"),
    ("check @bare", "unreadable"),
    ("files @nowhere", "unreadable"),
    ("files @letters --rule @nowhere", "unreadable"),
    ("tree @nowhere", "unreadable"),
    ("tree @letters --rule @rule", "wrong use"),
    ("rule @nowhere", "unreadable"),
    ("cat @nowhere --file 7", "unreadable"),
    ("cat @letters --path none", "absent"),
    ("cat @letters --path lost.text", "absent"),
    ("cat @letters --path \\q", "wrong use"),
    ("show @letters --path none --block 0", "absent"),
    ("write @letters --path none --from @short", "absent"),
    ("destroy @letters --path lost.text>x", "absent"),
    ("show @disk --file 7 --block 3", "absent"),
    ("show @disk --file 7 --block 3 --raw", "absent"),
    ("show --original @disk --repaired @disk --file 7 --block 3", "absent"),
    ("map @disk --output @bare/no/disk.svg", "unreadable"),
    ("map @disk --output @disk.gif", "wrong use"),
    ("repair @unsound --output @disk", "another file"),
    ("repair @nowhere", "unreadable"),
    ("batch @nowhere", "unreadable"),
    ("batch @disk", "unreadable"),
    ("create @disk --output @full", "another file"),
    ("write @disk --file 7 --from @nowhere", "unreadable"),
    ("write @disk --file 7 --from @empty", "wrong use"),
    ("describe @disk --file 7 --bytes @nowhere", "unreadable"),
    ("destroy @disk --file 7 --output @bare/no/disk", "unreadable"),
    ("fresh @disk --drive 3", "another file"),
    ("check @odd", "wrong use"),
];

#[test]
fn an_error_has_its_object_too() {
    for (line, outcome) in OTHERS {
        let object = of_line(line);
        assert_eq!(object["outcome"], outcome, "{line}: {object}");
        assert_eq!([&object["number"], &object["block"]], [&Value::Null; 2], "{line}: {object}");
    }
}

/// Wrong uses that are found before any command runs, with a word that the sentence must have.
const MISUSES: [(&str, &str); 33] = [
    ("", "subcommand"),
    ("bogus", "'bogus'"),
    ("partitions", "<IMAGE>"),
    ("check", "<IMAGE>"),
    ("check @disk @disk", "disk'"),
    ("check @disk --bogus", "'--bogus'"),
    ("check @disk --drive 5", "'5'"),
    ("check @disk --partition x", "'x'"),
    ("check @disk --partition", "--partition"),
    ("check @disk --partition 99999999999", "99999999999"),
    ("files", "<IMAGE>"),
    ("tree", "<IMAGE>"),
    ("tree @letters --rows 0", "'0'"),
    ("tree @letters --rule", "--rule"),
    ("rule", "<IMAGE>"),
    ("cat @disk", "--file"),
    ("cat @disk", "--path"),
    ("cat @disk --file 7 --path x", "--path"),
    ("cat @disk --file 7 --rule 1", "--rule"),
    ("show @disk --file 7", "--block"),
    ("show --original @disk --file 7 --block 0", "--repaired"),
    ("map", "<IMAGE>"),
    ("repair @disk --limit -1", "-1"),
    ("batch", "<FOLDER>"),
    ("batch @images --jobs 0", "'0'"),
    ("create @disk --kind 65536", "65536"),
    ("create @disk --in-place --output @new", "--in-place"),
    ("write @disk --from @short", "--file"),
    ("describe @disk --file 7", "--name"),
    ("destroy @disk", "--file"),
    ("fresh @new", "--drive"),
    ("address --drive 1 lbn", "<NUMBER>"),
    ("tour tour", "'tour'"),
];

#[test]
fn wrong_uses_have_an_object_with_a_sentence_that_says_what_is_wrong() {
    let mut wanting = Vec::new();
    for (line, word) in MISUSES {
        let line_with = [format!("--json {line}"), format!("{line} --json")];
        for line in line_with {
            let folder = all_kinds();
            let (object, status) = object(&words(&folder, &line));
            assert_eq!((&object["outcome"], status), (&json!("wrong use"), 2), "{line}");
            assert_eq!([&object["number"], &object["block"]], [&Value::Null; 2], "{line}");
            let sentence = object["sentence"].as_str().expect("a sentence");
            if !sentence.contains(word) || sentence.ends_with(':') {
                wanting.push(format!("{line}: {sentence}"));
            }
        }
    }
    assert!(wanting.is_empty(), "{wanting:#?}");
}

#[test]
fn arguments_that_are_no_text_have_an_object_too() {
    let folder = all_kinds();
    let disk = folder.text("disk");
    let odd = OsStr::from_bytes(b"\xff\x1b[31m\n\xfe");
    let plain = OsStr::new;
    let lines = [
        vec![odd, plain("--json")],
        vec![plain("--json"), plain("check"), odd],
        vec![plain("check"), plain(&disk), odd, plain("--json")],
        vec![plain("check"), plain(&disk), plain("--drive"), odd, plain("--json")],
        vec![plain("check"), plain(&disk), plain("--partition"), odd, plain("--json")],
        vec![plain("address"), plain("--json"), plain("--drive"), plain("1"), plain("lbn"), odd],
        vec![plain("batch"), odd, plain("--json")],
    ];
    for line in lines {
        let (object, status) = object(&line);
        agree(&object, status);
        assert!(matches!(status, 2 | 5), "{line:?}: {object}");
    }
}

#[test]
fn the_help_is_an_object_too() {
    for command in COMMANDS {
        let (object, status) = object(&[command, "--help", "--json"]);
        assert_eq!((&object["outcome"], status), (&json!("done"), 0), "{command}");
        let text = object["text"].as_str().expect("a text");
        assert!(text.contains(&format!("Usage: tapermoss {command}")), "{text}");
    }
    for line in [["--help", "--json"], ["--json", "--help"], ["--json", "--version"]] {
        let (object, status) = object(&line);
        assert_eq!((&object["outcome"], status), (&json!("done"), 0), "{line:?}");
        assert!(object["text"].as_str().expect("a text").contains("tapermoss"), "{object}");
    }
    let (_, status) = object(&["help", "--json"]);
    assert!(matches!(status, 0 | 2));
}

#[test]
fn the_statuses_are_in_the_help_and_in_the_documents() {
    let help = String::from_utf8(common::tapermoss(&["--help"]).stdout).expect("text");
    let path = concat!(env!("CARGO_MANIFEST_DIR"), "/../../docs/TOOL.md");
    let document = fs::read_to_string(path).expect("the document is there");
    for (outcome, status) in STATUSES {
        let row = |start: String, text: &str| {
            text.lines().any(|line| line.starts_with(&start) && line.contains(outcome))
        };
        assert!(row(format!("  {status}  "), &help), "{outcome}: {help}");
        assert!(row(format!("| {status} |"), &document), "{outcome} is not in docs/TOOL.md");
    }
}

/// One image and what `check`, `repair` and `batch` answer of it: the exit status and the number.
struct Kind {
    name: &'static str,
    check: (i32, Option<u64>),
    repair: (i32, Option<u64>),
}

const KINDS: [Kind; 8] = [
    Kind { name: "disk", check: (0, None), repair: (0, None) },
    Kind { name: "unsound", check: (1, Some(5)), repair: (3, None) },
    Kind { name: "malformed", check: (4, Some(4)), repair: (4, Some(4)) },
    Kind { name: "full", check: (1, Some(5)), repair: (1, Some(9)) },
    Kind { name: "empty", check: (1, Some(1)), repair: (1, Some(1)) },
    Kind { name: "zeros", check: (1, Some(2)), repair: (1, Some(2)) },
    Kind { name: "odd", check: (2, None), repair: (2, None) },
    Kind { name: "pipe", check: (5, None), repair: (5, None) },
];

/// The exit status without `--json`, and with it, and the number.
fn answered(line: &[&str]) -> (i32, Option<u64>) {
    let plain = tool(line).stdin(Stdio::null()).output().expect("the tool runs").status.code();
    let (object, status) = object(&[line, &["--json", "--force"]].concat());
    assert_eq!(plain, Some(status), "{line:?}");
    agree(&object, status);
    (status, object["number"].as_u64())
}

#[test]
fn check_repair_and_batch_have_the_same_statuses() {
    for Kind { name, check, repair } in KINDS {
        let folder = all_kinds();
        let alone = folder.text("bare");
        let image = format!("{alone}/{name}");
        match name {
            "pipe" => pipe(image.as_ref()),
            _ => fs::rename(folder.path(name), &image).expect("a renaming"),
        }
        let (object, status) = object(&["check", &image, "--json"]);
        agree(&object, status);
        assert_eq!((status, object["number"].as_u64()), check, "check {name}");
        let plain = common::tapermoss(&["check", &image]).status.code();
        assert_eq!(plain, Some(status), "check {name}");
        assert_eq!(answered(&["repair", &image]), repair, "repair {name}");
        assert_eq!(answered(&["batch", &alone]), repair, "batch {name}");
    }
}

#[test]
fn a_batch_has_the_status_of_its_worst_image() {
    let folder = all_kinds();
    fs::remove_file(folder.path("images/disk")).expect("it is there");
    let images = folder.text("images");
    let mut statuses = Vec::new();
    for name in ["disk", "unsound", "malformed", "full", "odd", "pipe"] {
        match name {
            "pipe" => pipe(&folder.path("images/pipe")),
            _ => fs::rename(folder.path(name), folder.path(&format!("images/{name}")))
                .expect("a renaming"),
        }
        statuses.push(answered(&["batch", &images]).0);
    }
    assert_eq!(statuses, [0, 3, 4, 1, 2, 5]);
}
