//! The sentences that the tool prints are true: what repair mends, what standard input, a folder or a number is; what a write
//! cannot take is in write_sentences.rs. Names in them are escaped and kept exactly in JSON, and an output that takes nothing
//! breaks nothing.

mod common;

use common::planted::letters;
use common::{
    fails, full, hex, malformed, printed, printed_bytes, sample, set_bytes, tapermoss, told, tool,
    unsound, Folder, FLOPPY,
};
use reference::sample::{content, named, scattered};
use serde_json::Value;
use std::ffi::{OsStr, OsString};
use std::fs::{self, File};
use std::io::Write;
use std::os::unix::ffi::{OsStrExt, OsStringExt};
use std::os::unix::process::ExitStatusExt;
use std::path::PathBuf;
use std::process::{Output, Stdio};

const ALL: u32 = u32::MAX;

// What repair mends.

/// A partition at 300 in the blocks of one that the table lists, and not sound.
fn inside() -> Vec<u8> {
    let mut image = sample();
    let inner = scattered(FLOPPY, 432, 300, 310, &[1], 1);
    image[528 * 300..528 * 311].copy_from_slice(&inner[528 * 300..528 * 311]);
    set_bytes(&mut image, 0, 122, &reference::lbn_to_lda(FLOPPY, 6).a.to_le_bytes());
    set_bytes(&mut image, 300, 2, &[0; 4]);
    image
}

/// A partition without files that is not sound.
fn no_files() -> Vec<u8> {
    let mut image = scattered(FLOPPY, 432, 6, 431, &[], 7);
    set_bytes(&mut image, 6, 2, &[0; 4]);
    image
}

#[test]
fn repair_is_said_to_mend_only_what_it_mends() {
    let kinds = [
        ("unsound", unsound(), "6"),
        ("full", full(), "6"),
        ("inside", inside(), "300"),
        ("no-files", no_files(), "6"),
    ];
    let mut promised = Vec::new();
    for (name, bytes, partition) in kinds {
        let folder = Folder::new();
        let image = folder.put(name, &bytes);
        let place = [image.as_str(), "--partition", partition];
        let commands = [&["check"][..], &["create"], &["destroy", "--file", "7"]];
        let sentences = commands.map(|command| told(&tapermoss(&[command, &place].concat())));
        let repaired = tapermoss(&[&["repair"], &place[..]].concat());
        let mended = repaired.status.code() == Some(3);
        for sentence in &sentences {
            let promises = sentence.contains("repair mends it");
            assert!(sentence.contains("refused (5): the partition at block"), "{sentence}");
            assert_eq!(promises, mended, "{name}: {sentence}but repair: {repaired:?}");
        }
        promised.extend(mended.then_some(name));
    }
    assert_eq!(promised, ["unsound"]);
}

#[test]
fn what_is_not_taken_for_a_partition_is_not_said_to_stay_as_it_is() {
    let mention = "block 300 looks like a partition, but shares blocks with that at block 6, which the table lists: it is not taken for one\n";
    let lines: [(&[&str], &str); 2] =
        [(&["--partition", "300", "--force"], ""), (&["--partition", "6", "--anyway"], mention)];
    for (line, expected) in lines {
        let folder = Folder::new();
        let image = folder.put("disk", &inside());
        let output = tapermoss(&[&["repair", &image], line].concat());
        assert_eq!((told(&output).as_str(), output.status.code()), (expected, Some(3)), "{line:?}");
        let blocks = 528 * 300..528 * 311;
        let same = folder.read("disk.repaired")[blocks.clone()] == inside()[blocks];
        assert!(!same, "{line:?} changes its blocks");
    }
}

#[test]
fn one_of_a_thing_is_counted_as_one() {
    let folder = Folder::new();
    let image = folder.put("disk", &scattered(FLOPPY, 432, 6, 431, &[0], 7));
    let told = "the partition at block 6 is sound: 1 file, 1 block owned, 424 free\n";
    assert_eq!(printed(&["check", &image]), told);
}

#[test]
fn what_helps_a_partition_without_a_free_block_is_said_and_helps() {
    let folder = Folder::new();
    let image = folder.put("disk", &full());
    fails(
        &["check", &image],
        "refused (5): the partition at block 6 is not sound; repair is refused (9) as no block is free: `cat` still reads its files, and `write` puts them into a fresh image",
    );
    let repair = tapermoss(&["repair", &image]);
    assert!(told(&repair).starts_with("tapermoss: refused (9): "), "{repair:?}");
    assert_eq!(repair.status.code(), Some(1));
    let bytes = printed_bytes(&["cat", &image, "--file", "7"]);
    let expected: Vec<u8> = (0..12).flat_map(|r| content(7, 0, r)).collect();
    assert!(bytes == expected);
    let (from, new) = (folder.put("bytes", &bytes), folder.text("new"));
    printed(&["fresh", &new, "--drive", "3"]);
    printed(&["create", &new, "--in-place"]);
    printed(&["write", &new, "--file", "7", "--from", &from, "--in-place"]);
    assert!(printed_bytes(&["cat", &new, "--file", "7"]) == expected);
    assert_eq!(reference::check(&folder.read("new"), FLOPPY, 6).outcome, reference::DONE);
}

// Standard input, folders and numbers.

/// Runs the tool with bytes in a pipe as its standard input.
fn piped(arguments: &[&str], bytes: &[u8]) -> Output {
    let mut command = tool(arguments);
    command.stdin(Stdio::piped()).stdout(Stdio::piped()).stderr(Stdio::piped());
    let mut run = command.spawn().expect("the tool runs");
    let mut input = run.stdin.take().expect("a pipe");
    // A tool that does not read it closes the pipe, which is as good.
    let _ = input.write_all(bytes);
    drop(input);
    run.wait_with_output().expect("it ends")
}

#[test]
fn an_image_in_a_pipe_is_refused_as_no_regular_file() {
    let folder = Folder::new();
    let out = folder.text("out");
    let commands: [&[&str]; 10] = [
        &["partitions"],
        &["check"],
        &["files"],
        &["tree"],
        &["cat", "--path", "letters"],
        &["cat", "--file", "7"],
        &["show", "--file", "7", "--block", "0"],
        &["repair", "--output", &out],
        &["create", "--output", &out],
        &["create", "--in-place"],
    ];
    for command in commands {
        for name in ["-", "/dev/stdin"] {
            let arguments = [command, &[name]].concat();
            let output = piped(&arguments, &sample());
            let sentence = told(&output);
            assert_eq!(output.status.code(), Some(5), "{arguments:?}: {output:?}");
            let told =
                "tapermoss: cannot read /dev/stdin: it is a pipe, and an image is a regular file\n";
            assert_eq!(sentence, told, "{arguments:?}");
        }
    }
    assert!(folder.names().is_empty());
}

#[test]
fn an_image_behind_standard_input_is_read() {
    let folder = Folder::new();
    folder.put("disk", &sample());
    for name in ["/dev/stdin", "-"] {
        let image = File::open(folder.path("disk")).expect("the image");
        let output = tool(&["check", name]).stdin(image).output().expect("the tool runs");
        assert_eq!(output.status.code(), Some(0), "{output:?}");
    }
}

#[test]
fn bytes_to_write_come_from_standard_input_too() {
    let folder = Folder::new();
    let image = folder.put("disk", &sample());
    let mut expected = sample();
    let mut block = b"letter".to_vec();
    block.resize(512, 0);
    reference::write(&mut expected, FLOPPY, 6, 8, 0, &block, ALL);
    for (option, given) in [("--from", &b"letter"[..]), ("--bytes", &named(b"letter"))] {
        for name in ["/dev/stdin", "-"] {
            let command = if option == "--from" { "write" } else { "describe" };
            let out = folder.text("out");
            let line = [command, &image, "--file", "8", option, name, "--output", &out, "--force"];
            let output = piped(&line, given);
            assert_eq!(output.status.code(), Some(0), "{line:?}: {output:?}");
            if option == "--from" {
                assert!(folder.read("out") == expected, "{line:?}");
            }
        }
    }
}

#[test]
fn force_is_said_to_replace_only_what_it_replaces() {
    let folder = Folder::new();
    let image = folder.put("disk", &sample());
    let file = folder.put("file", b"another");
    fs::create_dir(folder.path("inner")).expect("a folder");
    for name in [file, folder.text("inner")] {
        let lines =
            [vec!["create", &image, "--output", &name], vec!["fresh", &name, "--drive", "3"]];
        for line in lines {
            let output = tapermoss(&line);
            let promised = told(&output).contains("--force replaces it");
            assert!(matches!(output.status.code(), Some(5 | 6)), "{line:?}: {output:?}");
            let forced = tapermoss(&[&line[..], &["--force"]].concat());
            assert_eq!(promised, forced.status.code() == Some(0), "{output:?}, but {forced:?}");
        }
    }
}

#[test]
fn a_number_that_is_too_large_is_said_to_be_that() {
    let cases: [(&[&str], &str); 6] = [
        (&["lbn", "4294967296"], "4294967296 is too large: it has more than 32 bits"),
        (
            &["lbn", "99999999999999999999"],
            "99999999999999999999 is too large: it has more than 32 bits",
        ),
        (&["fileid", "4294967296"], "4294967296 is too large: it has more than 32 bits"),
        (&["pda", "200000", "0"], "200000 is too large: it has more than 16 bits"),
        (&["lda", "0", "200000"], "200000 is too large: it has more than 16 bits"),
        (&["lda", "0", "777777777777"], "777777777777 is too large: it has more than 16 bits"),
    ];
    for (words, sentence) in cases {
        let output = tapermoss(&[&["address", "--drive", "1"], words].concat());
        assert_eq!(told(&output), format!("tapermoss: {sentence}\n"), "{words:?}");
        assert_eq!(output.status.code(), Some(2), "{words:?}");
    }
    let output = tapermoss(&["address", "--drive", "1", "lbn", "4294967295"]);
    assert_eq!(output.status.code(), Some(1), "it is a number, and no block: {output:?}");
    for text in ["12x", "0x10", "", "-1"] {
        let output = tapermoss(&["address", "--drive", "1", "lbn", "--", text]);
        let sentence = format!("tapermoss: '{text}' is not a decimal number from 0 up\n");
        assert_eq!(told(&output), sentence);
    }
}

// Names.

/// Names that would steer a terminal or are no text, each as it must be shown.
const NAMES: [(&[u8], &str); 6] = [
    (b"esc\x1b[31mred", "esc\\x1b[31mred"),
    (b"new\nline", "new\\x0aline"),
    (b"tab\tdel\x7f", "tab\\x09del\\x7f"),
    (b"bad\xff\xfeutf", "bad\\xff\\xfeutf"),
    ("turn\u{202e}gmi".as_bytes(), "turn\\u{202e}gmi"),
    ("plain-\u{e9}".as_bytes(), "plain-\u{e9}"),
];

fn odd_path(folder: &Folder, name: &[u8]) -> PathBuf {
    folder.as_ref().join(OsStr::from_bytes(name))
}

/// Whether a text has nothing that would steer a terminal, besides the ends of its lines.
fn is_tame(bytes: &[u8]) -> bool {
    let text = std::str::from_utf8(bytes);
    text.is_ok_and(|text| {
        let tame = |c: char| c == '\n' || !(c.is_control() || c == '\u{202e}');
        text.chars().all(tame)
    })
}

#[test]
fn a_batch_escapes_names_in_its_text_and_keeps_them_in_json() {
    let folder = Folder::new();
    for (name, _) in NAMES {
        fs::write(odd_path(&folder, name), unsound()).expect("a file");
    }
    let place = folder.as_ref().to_str().expect("text").to_string();
    let output = tapermoss(&["batch", &place]);
    assert!(is_tame(&output.stdout) && is_tame(&output.stderr), "{output:?}");
    let text = String::from_utf8(output.stdout).expect("text");
    for (_, shown) in NAMES {
        let row = text.lines().find(|line| line.starts_with(&format!("{shown} ")));
        let row = row.unwrap_or_else(|| panic!("{shown} is not in {text}"));
        assert!(row.contains(&format!("{shown}.repaired: 3 files")), "{row}");
    }
    let output = tapermoss(&["batch", &place, "--json"]);
    let report: Value = serde_json::from_slice(&output.stdout).expect("JSON");
    let images = report["images"].as_array().expect("a list");
    let mut found: Vec<(&str, &str)> = images
        .iter()
        .map(|image| {
            (image["name_bytes"].as_str().expect("hex"), image["image"].as_str().expect("text"))
        })
        .collect();
    found.sort_unstable();
    let mut expected = NAMES.map(|(name, shown)| (hex(name), shown));
    expected.sort_unstable();
    assert_eq!(found, expected.each_ref().map(|(name, shown)| (name.as_str(), *shown)));
}

#[test]
fn error_sentences_escape_the_names_in_them() {
    let folder = Folder::new();
    let image = folder.put("disk", &sample());
    for (name, shown) in NAMES {
        let path = odd_path(&folder, name);
        let path = path.as_os_str();
        let plain = OsStr::new;
        let lines = [
            vec![plain("check"), path],
            vec![plain("batch"), path],
            vec![
                plain("create"),
                plain(&image),
                plain("--output"),
                path,
                plain("--limit"),
                plain("0"),
            ],
            vec![plain("write"), plain(&image), plain("--file"), plain("7"), plain("--from"), path],
            vec![plain("map"), plain(&image), plain("--output"), path],
            vec![plain("check"), plain(&image), path],
        ];
        for line in lines {
            fs::write(path, b"").expect("a file");
            let output = tool(&[]).args(&line).output().expect("the tool runs");
            assert_ne!(output.status.code(), Some(0), "{line:?}");
            assert!(is_tame(&output.stderr) && is_tame(&output.stdout), "{line:?}: {output:?}");
            fs::remove_file(path).expect("it is there");
            let missing = tool(&[]).args([plain("check"), path]).output().expect("the tool runs");
            assert!(told(&missing).contains(&format!("/{shown}: No such file")), "{missing:?}");
        }
    }
}

#[test]
fn names_of_new_files_are_kept_exactly_in_json() {
    for (name, shown) in NAMES {
        let folder = Folder::new();
        let image = odd_path(&folder, name);
        fs::write(&image, unsound()).expect("a file");
        let sound = odd_path(&folder, &[name, b"-sound"].concat());
        fs::write(&sound, sample()).expect("a file");
        let mut other = OsString::from_vec(name.to_vec());
        other.push("-fresh");
        let fresh = folder.as_ref().join(other);
        let plain = OsStr::new;
        let lines = [
            (vec![plain("repair"), image.as_os_str()], ".repaired"),
            (vec![plain("create"), sound.as_os_str()], "-sound.new"),
            (vec![plain("map"), sound.as_os_str()], "-sound.svg"),
            (vec![plain("fresh"), fresh.as_os_str(), plain("--drive"), plain("3")], "-fresh"),
        ];
        for (line, ending) in lines {
            let output = tool(&["--json"]).args(&line).output().expect("the tool runs");
            assert!(matches!(output.status.code(), Some(0 | 3)), "{line:?}: {output:?}");
            assert!(odd_path(&folder, &[name, ending.as_bytes()].concat()).is_file(), "{line:?}");
            let text = String::from_utf8(output.stdout).expect("text");
            let object: Value = serde_json::from_str(&text).expect("JSON");
            let written = object["written"].to_string();
            let escaped = format!("{shown}{ending}").replace('\\', "\\\\");
            assert!(written.contains(&escaped), "{line:?}: {written}");
            let exact = hex(&[name, ending.as_bytes()].concat());
            assert!(text.contains(&exact), "{line:?} has no {exact}: {text}");
        }
    }
}

#[test]
fn the_names_of_files_in_an_image_are_escaped_and_kept_exactly() {
    let folder = Folder::new();
    let names: [&[u8]; 3] = [b"letter.text", b"a\\\x07\xff\x1b[2J", b"\n\r\xe2\x80\xae"];
    let shown = ["letter.text", "a\\\\\\x07\\xff\\x1b[2J", "\\x0a\\x0d\\xe2\\x80\\xae"];
    let mut bytes = sample();
    for (f, name) in (7..).zip(names) {
        set_bytes(&mut bytes, f, 11, &[&[name.len() as u8], name].concat());
    }
    let image = folder.put("disk", &bytes);
    let text = printed(&["files", &image]);
    let rows: Vec<&str> = text.lines().skip(1).collect();
    for (row, shown) in rows.iter().zip(shown) {
        assert!(row.ends_with(&format!("  {shown}")), "{row}");
    }
    let object: Value = serde_json::from_str(&printed(&["files", "--json", &image])).expect("JSON");
    for i in 0..3 {
        assert_eq!(object["files"][i]["name"], shown[i]);
        assert_eq!(object["files"][i]["name_bytes"], hex(names[i]));
    }
}

#[test]
fn a_long_name_does_not_break_the_name_of_the_temporary_file() {
    for length in [201, 240, 250, 255] {
        let folder = Folder::new();
        let (disk, name) = (folder.put("disk", &sample()), "n".repeat(length));
        let long = folder.text(&name);
        let mut expected = sample();
        reference::create(&mut expected, FLOPPY, 6, 0, ALL);
        printed(&["create", &disk, "--output", &long]);
        assert!(folder.read(&name) == expected, "{length}");
        reference::create(&mut expected, FLOPPY, 6, 0, ALL);
        printed(&["create", &long, "--in-place"]);
        assert!(folder.read(&name) == expected, "{length}");
        printed(&["fresh", &long, "--drive", "3", "--force"]);
        assert_eq!(folder.names(), ["disk", &name]);
    }
    let folder = Folder::new();
    let umlauts = "\u{e4}".repeat(127);
    let image = folder.put(&umlauts, &sample());
    printed(&["create", &image, "--in-place"]);
    assert_eq!(folder.names(), [umlauts]);
}

// Outputs that take nothing.

fn dev_full() -> File {
    File::options().write(true).open("/dev/full").expect("the device is there")
}

/// A folder with an image of every kind, and a line for each kind of error, with its status.
fn errors() -> (Folder, Vec<(Vec<String>, i32)>) {
    let folder = Folder::new();
    folder.put("disk", &sample());
    folder.put("unsound", &unsound());
    folder.put("malformed", &malformed());
    folder.put("odd", &scattered(0, 40, 1, 39, &[3, 0], 7));
    folder.put(".disk.new.1-0.part", b"left by a run that was killed");
    fs::create_dir(folder.path("images")).expect("a folder");
    fs::write(folder.path("images/a"), unsound()).expect("a file");
    let lines = [
        ("", 2),
        ("bogus", 2),
        ("check", 2),
        ("check @odd", 2),
        ("check @nowhere", 5),
        ("check @unsound", 1),
        ("check @malformed", 4),
        ("cat @disk --file 10", 1),
        ("show @disk --file 7 --block 3 --raw", 7),
        ("create @disk --output @odd", 6),
        ("create @disk --force", 0),
        ("repair @malformed", 4),
        ("repair @unsound --output @disk", 6),
        ("batch @images --force", 3),
        ("batch @nowhere", 5),
        ("address --drive 1 lbn x", 2),
    ];
    let word =
        |word: &str| word.strip_prefix('@').map_or(word.to_string(), |name| folder.text(name));
    let words = |line: &str| line.split_whitespace().map(word).collect();
    let lines = lines.map(|(line, status)| (words(line), status)).to_vec();
    (folder, lines)
}

#[test]
fn a_standard_error_that_takes_nothing_breaks_nothing() {
    let (_folder, lines) = errors();
    for (line, status) in lines {
        let run = || tool(&[]).args(&line).output().expect("the tool runs");
        // The second run finds what the first one has made, as all later ones do.
        let known = [run(), run()][1].clone();
        assert_eq!(known.status.code(), Some(status), "{line:?}: {known:?}");
        for json in [&[][..], &["--json"]] {
            let mut command = tool(json);
            command.args(&line).stderr(dev_full());
            let output = command.output().expect("the tool runs");
            assert_eq!(output.status.signal(), None, "{line:?}");
            assert_eq!(output.status.code(), Some(status), "{line:?} {json:?}");
            if json.is_empty() {
                assert_eq!(output.stdout, known.stdout, "{line:?}");
            }
        }
    }
}

#[test]
fn a_standard_output_that_takes_nothing_is_status_5() {
    let folder = Folder::new();
    let image = folder.put("disk", &sample());
    let letters = folder.put("letters", &letters().image);
    fs::create_dir(folder.path("images")).expect("a folder");
    let images = folder.text("images");
    let lines: [&[&str]; 14] = [
        &["partitions", &image],
        &["check", &image],
        &["files", &image],
        &["tree", &letters],
        &["cat", &letters, "--path", "letters>first.text"],
        &["cat", &image, "--file", "9"],
        &["show", &image, "--file", "7", "--block", "0", "--raw"],
        &["map", &image, "--force"],
        &["repair", &image],
        &["batch", &images],
        &["create", &image, "--force"],
        &["address", "--drive", "1", "lbn", "210"],
        &["tour"],
        &["--help"],
    ];
    for line in lines {
        for json in [&[][..], &["--json"]] {
            let output = tool(line).args(json).stdout(dev_full()).output().expect("the tool runs");
            assert_eq!(output.status.code(), Some(5), "{line:?} {json:?}: {output:?}");
            let sentence =
                "tapermoss: cannot write to standard output: No space left on device (os error 28)\n";
            assert!(told(&output).ends_with(sentence), "{line:?} {json:?}: {output:?}");
            let mut command = tool(line);
            command.args(json).stdout(dev_full()).stderr(dev_full());
            let status = command.status().expect("the tool runs");
            assert_eq!(status.code(), Some(5), "{line:?} {json:?}");
        }
    }
}

#[test]
fn a_block_that_is_absent_has_a_status_of_its_own() {
    let folder = Folder::new();
    let image = folder.put("disk", &sample());
    let show = |block, more: &[&str]| {
        tapermoss(&[&["show", &image, "--file", "7", "--block", block], more].concat())
    };
    let absent = show("3", &["--raw"]);
    assert_eq!((absent.status.code(), absent.stdout.len()), (Some(7), 0));
    assert_eq!(told(&absent), "file 7 has no block 3: it ends before\n");
    let text = show("3", &[]);
    assert_eq!(text.status.code(), Some(7));
    assert_eq!(text.stdout, b"file 7 has no block 3: it ends before\n");
    let there = show("2", &["--raw"]);
    assert_eq!((there.status.code(), there.stdout.len()), (Some(0), 512));
    let pair = ["show", "--original", &image, "--repaired", &image, "--file", "7", "--block", "3"];
    assert_eq!(tapermoss(&pair).status.code(), Some(7));
}
