//! The commands that only look at an image: what they print, every refusal, and how drive and partition are found.

mod common;

use common::{
    fails, fails_with, malformed, misused, printed, printed_bytes, printed_with, sample, set_bytes,
    set_word, tapermoss, unsound, Folder,
};
use reference::sample::{content, scattered};
use serde_json::{json, Value};

/// The sample with a device's table that lists the partition at 6 and also block 300.
fn with_table() -> Vec<u8> {
    let mut image = sample();
    for (i, block) in [6, 300].into_iter().enumerate() {
        set_bytes(&mut image, 0, 122 + 2 * i, &reference::lbn_to_lda(3, block).a.to_le_bytes());
    }
    set_bytes(&mut image, 0, 114, b"SYS\0\0\0\0\0");
    set_bytes(&mut image, 6, 114, b"USER\x01   ");
    image
}

#[test]
fn partitions_and_the_table_that_lists_them() {
    let folder = Folder::new();
    let image = folder.put("disk", &with_table());
    let text = "\
drive   3 (floppy, single-sided)
blocks  432
device  SYS

 first   last  blocks  listed  name
     6    431     426  yes     USER\\x01
the table lists block 300, at which no good partition starts
";
    assert_eq!(printed(&["partitions", &image]), text);
    let found: Value =
        serde_json::from_str(&printed(&["partitions", "--json", &image])).expect("JSON");
    assert_eq!(found["listed_but_not_good"], json!([300]));
    assert_eq!(
        found["partitions"][0],
        json!({
            "first": 6, "last": 431, "blocks": 426, "listed": true, "shares_with": null,
            "name": "USER\\x01", "name_bytes": "5553455201", "doubt": null,
        })
    );
}

/// The sample with a second partition, from 300 to 310, inside the first, in the data of a free block.
fn two_partitions() -> Vec<u8> {
    let mut image = sample();
    let inner = scattered(3, 432, 300, 310, &[], 1);
    image[528 * 300..528 * 311].copy_from_slice(&inner[528 * 300..528 * 311]);
    image
}

#[test]
fn every_good_partition_is_found_and_the_unlisted_ones_said() {
    let folder = Folder::new();
    let image = folder.put("disk", &two_partitions());
    let text = printed(&["partitions", &image]);
    assert!(
        text.contains("     6    431     426  no      -\n   300    310      11  no      -\n"),
        "{text}"
    );
    let told = misused(&["files", &image]);
    assert_eq!(
        told,
        "tapermoss: the image has 2 partitions, at blocks 6, 300: name one with --partition\n"
    );
    let line = "the partitions at blocks 6 and 300 share blocks, and the table does not decide between them: --partition names one\n";
    assert_eq!(printed_with(4, &["check", &image]), format!("{line}{line}"));
    assert_eq!(
        printed(&["check", "--partition", "300", &image]),
        "the partition at block 300 is sound: 0 files, 0 blocks owned, 10 free\n"
    );
}

#[test]
fn check_tells_what_a_sound_partition_holds() {
    let folder = Folder::new();
    let image = folder.put("disk", &sample());
    let told = "the partition at block 6 is sound: 3 files, 77 blocks owned, 348 free\n";
    assert_eq!(printed(&["check", &image]), told);
    assert_eq!(printed(&["check", "--drive", "floppy", "--partition", "6", &image]), told);
    let found: Value = serde_json::from_str(&printed(&["check", "--json", &image])).expect("JSON");
    assert_eq!((&found["outcome"], &found["drive"]), (&json!("sound"), &json!(3)));
    assert_eq!(
        found["partitions"],
        json!([{
            "first": 6, "last": 431, "listed": false, "shares_with": null, "outcome": "sound",
            "number": null, "block": null, "sentence": null, "files": 3, "owned": 77, "free": 348,
            "records_changed": 0,
        }])
    );
}

#[test]
fn check_refuses_with_number_and_block() {
    let folder = Folder::new();
    let unsound = folder.put("unsound", &unsound());
    let malformed = folder.put("malformed", &malformed());
    fails_with(4, &["check", &malformed], "refused (4): block 7 is a malformed file block");
    let sentence = "refused (5): the partition at block 6 is not sound; repair mends it";
    fails(&["check", &unsound], sentence);
    fails(
        &["check", "--partition", "7", &unsound],
        "refused (2): no good partition starts at block 7",
    );
}

#[test]
fn what_is_no_image_is_refused_by_1() {
    let folder = Folder::new();
    let empty = folder.put("empty", b"");
    let ragged = folder.put("ragged", &[0; 1000]);
    let zeros = folder.put("zeros", &[0; 528 * 432]);
    let long = folder.put("long", &vec![0; 528 * 69_553]);
    for command in ["partitions", "check", "files"] {
        fails(&[command, &empty], "refused (1): the image is empty");
        let sentence =
            "refused (1): the image's 1000 bytes are no whole number of 528-byte records";
        fails(&[command, &ragged], sentence);
        fails(&[command, "--drive", "0", &ragged], sentence);
        fails(
            &[command, &long],
            "refused (1): the image has 69553 blocks, and drive 2 (Micropolis 35 MB) only 69552",
        );
    }
    fails(&["check", &zeros], "refused (2): no good partition starts at any block");
    assert!(printed(&["partitions", &zeros]).ends_with("name\n"));
}

#[test]
fn a_size_that_no_drive_has_wants_the_drive() {
    let folder = Folder::new();
    let image = folder.put("disk", &scattered(0, 40, 1, 39, &[3, 0], 7));
    let told = misused(&["check", &image]);
    assert_eq!(
        told,
        "tapermoss: the image has 40 blocks, as no drive has: name its drive with --drive; \
         it has 2 files as drive 0 (Shugart 12 MB), 2 files as drive 1 (Shugart 24 MB)\n"
    );
    let told = printed(&["check", "--drive", "0", &image]);
    assert_eq!(told, "the partition at block 1 is sound: 2 files, 5 blocks owned, 33 free\n");
    let sizes = [(0, 24_210), (1, 48_450), (2, 69_552)];
    for (drive, blocks) in sizes {
        let image = folder.put("disk", &scattered(drive, blocks, 90, 200, &[3], 7));
        assert!(printed(&["partitions", &image]).starts_with(&format!("drive   {drive} ")));
    }
}

#[test]
fn a_file_that_is_not_there_is_status_5() {
    fails_with(
        5,
        &["check", "no/such/image"],
        "cannot read no/such/image: No such file or directory (os error 2)",
    );
}

/// The sample with names in the descriptions: a plain one, one that cannot be printed, and one that is too long.
fn named() -> Vec<u8> {
    let mut image = sample();
    set_bytes(&mut image, 7, 11, b"\x0bletter.text");
    set_bytes(&mut image, 8, 11, b"\x04a\\\x07\xff");
    set_bytes(&mut image, 9, 11, &[82]);
    image
}

#[test]
fn files_with_their_names() {
    let folder = Folder::new();
    let image = folder.put("disk", &named());
    let text = "   LBN  FileID   kind  blocks  in use     name
     7   57351      0       3       4     letter.text
     8   57352      1       0       1  !  a\\\\\\x07\\xff
     9   57353      2      70      72  !  -
! is a name that `describe` would refuse (12); with --json it is said which rule it breaks and where
no paths: refused (6): the partition at block 6 has no root directory: its RootDirectoryID is nil
";
    assert_eq!(printed(&["files", &image]), text);
    let found: Value = serde_json::from_str(&printed(&["files", "--json", &image])).expect("JSON");
    let first = json!({
        "lbn": 7, "fileid": 57_351, "kind": 0, "blocks": 3, "in_use": 4, "name": "letter.text",
        "name_bytes": "6c65747465722e74657874", "name_rule": null, "name_place": null,
        "name_remark": null, "paths": [],
    });
    assert_eq!(found["files"][0], first);
    assert_eq!(found["files"][2]["name"], Value::Null);
    assert_eq!(found["malformed"], json!([]));
}

#[test]
fn files_are_listed_around_a_malformed_one() {
    let folder = Folder::new();
    let image = folder.put("disk", &malformed());
    let text = printed(&["files", &image]);
    assert!(!text.contains("57351"), "{text}");
    assert!(text.contains("57352") && text.contains("57353"), "{text}");
    assert!(text.contains("\nblock 7 is a malformed file block\n"), "{text}");
    let found: Value = serde_json::from_str(&printed(&["files", "--json", &image])).expect("JSON");
    assert_eq!(found["malformed"], json!([7]));
}

#[test]
fn a_block_above_every_fileid_has_none() {
    let folder = Folder::new();
    let image = folder.put("disk", &scattered(2, 69_552, 60_000, 60_100, &[1], 7));
    let text = printed(&["files", &image]);
    assert!(text.contains(" 60001       -      0       1       2  -\n"), "{text}");
}

#[test]
fn cat_prints_the_whole_file() {
    let folder = Folder::new();
    let image = folder.put("disk", &sample());
    let whole: Vec<u8> = (0..70).flat_map(|r| content(7, 2, r)).collect();
    assert_eq!(printed_bytes(&["cat", &image, "--file", "9"]), whole);
    assert!(printed_bytes(&["cat", &image, "--file", "8"]).is_empty());
    let sentence = "refused (6): block 10 is no file of the partition at block 6";
    fails(&["cat", &image, "--file", "10"], sentence);
    let broken = folder.put("broken", &malformed());
    fails(&["cat", &broken, "--file", "7"], "refused (4): block 7 is a malformed file block");
    assert_eq!(printed_bytes(&["cat", &broken, "--file", "9"]), whole);
    fails(
        &["cat", &image, "--partition", "5", "--file", "9"],
        "refused (2): no good partition starts at block 5",
    );
}

#[test]
fn show_prints_a_block_in_hex_or_as_it_is() {
    let folder = Folder::new();
    let mut bytes = sample();
    let place = reference::show(&bytes, 3, 6, 7, 1).a as usize;
    bytes[place..place + 20].copy_from_slice(b"Hello, PERQ.\n\0\x7f~ ABC");
    let image = folder.put("disk", &bytes);
    let text = printed(&["show", &image, "--file", "7", "--block", "1"]);
    let lines: Vec<&str> = text.lines().collect();
    assert_eq!(lines[0], format!("block 1 of file 7 is block {}", place / 528));
    assert_eq!(lines[1], "000  48 65 6c 6c 6f 2c 20 50 45 52 51 2e 0a 00 7f 7e  Hello, PERQ....~");
    assert!(lines[2].starts_with("010  20 41 42 43 "), "{}", lines[2]);
    assert_eq!(lines.len(), 33);
    let raw = tapermoss(&["show", &image, "--file", "7", "--block", "1", "--raw"]);
    assert_eq!(raw.stdout, bytes[place..place + 512]);
    assert_eq!(String::from_utf8_lossy(&raw.stderr), format!("{}\n", lines[0]));
}

#[test]
fn show_tells_absent_and_each_refusal_apart() {
    let folder = Folder::new();
    let image = folder.put("disk", &sample());
    let show = |image, file, block| ["show", image, "--file", file, "--block", block];
    let absent = |file, block| printed_with(7, &show(&image, file, block));
    assert_eq!(absent("7", "3"), "file 7 has no block 3: it ends before\n");
    assert_eq!(absent("8", "32766"), "file 8 has no block 32766: it ends before\n");
    fails(&show(&image, "7", "32767"), "refused (7): block 32767 is beyond what file 7 can have");
    fails(&show(&image, "6", "0"), "refused (6): block 6 is no file of the partition at block 6");
    let broken = folder.put("broken", &malformed());
    fails(&show(&broken, "7", "0"), "refused (4): block 7 is a malformed file block");
    assert!(printed(&show(&broken, "9", "69")).starts_with("block 69 of file 9 is block "));
}

/// The pair: an original in which file 7 is malformed, and a repaired one in which file 9 is.
fn pair(folder: &Folder) -> (String, String) {
    let mut repaired = scattered(3, 432, 6, 431, &[2, 0, 70], 8);
    set_word(&mut repaired, 9, 249, 99);
    (folder.put("disk", &malformed()), folder.put("disk.repaired", &repaired))
}

#[test]
fn from_a_pair_the_repaired_image_answers_unless_it_refuses() {
    let folder = Folder::new();
    let (original, repaired) = pair(&folder);
    let show = |file, block| {
        let pair = ["show", "--original", &original, "--repaired", &repaired];
        [&pair[..], &["--file", file, "--block", block, "--raw"]].concat()
    };
    let from_repaired = tapermoss(&show("7", "1"));
    assert_eq!(from_repaired.stdout, content(8, 0, 1));
    let told = String::from_utf8_lossy(&from_repaired.stderr).into_owned();
    assert!(told.starts_with("the repaired image answered: block 1 of file 7 is block "), "{told}");

    let from_original = tapermoss(&show("9", "69"));
    assert_eq!(from_original.stdout, content(7, 2, 69));
    let told = String::from_utf8_lossy(&from_original.stderr).into_owned();
    assert!(
        told.starts_with("the original image answered: block 69 of file 9 is block "),
        "{told}"
    );

    let absent = tapermoss(&show("7", "2"));
    assert_eq!((absent.status.code(), absent.stdout.len()), (Some(7), 0));
    assert_eq!(
        String::from_utf8_lossy(&absent.stderr),
        "the repaired image answered: file 7 has no block 2: it ends before\n"
    );
}

#[test]
fn when_both_of_a_pair_refuse_the_sentence_is_the_original_s() {
    let folder = Folder::new();
    let (original, repaired) = pair(&folder);
    let empty = folder.put("empty", b"");
    let show = |original, repaired, file| {
        let pair = ["show", "--original", original, "--repaired", repaired];
        [&pair[..], &["--file", file, "--block", "0"]].concat()
    };
    fails(
        &show(&original, &repaired, "10"),
        "refused (6): block 10 is no file of the partition at block 6",
    );
    fails(&show(&original, &empty, "7"), "refused (4): block 7 is a malformed file block");
    let text = printed(&show(&original, &empty, "9"));
    assert!(text.starts_with("the original image answered: block 0 of file 9"), "{text}");
    let text = printed(&show(&empty, &repaired, "7"));
    assert!(text.starts_with("the repaired image answered: block 0 of file 7"), "{text}");
    fails(&show(&empty, &empty, "7"), "refused (1): the image is empty");
}

#[test]
fn wrong_uses_of_the_looking_commands() {
    let folder = Folder::new();
    let image = folder.put("disk", &sample());
    let uses: [&[&str]; 9] = [
        &["check"],
        &["check", &image, "--drive", "5"],
        &["check", &image, "--partition", "x"],
        &["cat", &image],
        &["show", &image, "--file", "7"],
        &["show", "--file", "7", "--block", "0"],
        &["show", "--original", &image, "--file", "7", "--block", "0"],
        &[
            "show",
            &image,
            "--original",
            &image,
            "--repaired",
            &image,
            "--file",
            "7",
            "--block",
            "0",
        ],
        &["map", &image, "--output", "picture.gif"],
    ];
    for arguments in uses {
        misused(arguments);
    }
}

#[test]
fn a_reader_that_has_seen_enough_is_no_failure() {
    let folder = Folder::new();
    let image = folder.put("disk", &sample());
    let mut child = common::tool(&["cat", &image, "--file", "9"])
        .stdout(std::process::Stdio::piped())
        .stderr(std::process::Stdio::piped())
        .spawn()
        .expect("the tool runs");
    drop(child.stdout.take());
    let output = child.wait_with_output().expect("the tool ends");
    assert_eq!(output.status.code(), Some(0), "{output:?}");
    assert!(output.stderr.is_empty(), "{output:?}");
}
