//! Which partitions an image has: those that the device's table lists, good or not, and every other good one that lies
//! apart. Disks of real size, as `batch`, `check`, `repair` and the commands for one partition take them: one rule for all.

mod common;

use common::{said, set_bytes, set_word, tapermoss, with, Folder};
use reference::image::{HEADER, RECORD};
use reference::sample::scattered;
use serde_json::{json, Value};

const BLOCKS: u32 = 24_210;
const ALL: u32 = u32::MAX;

/// The three partitions of a disk: first block, last block, and how long their files are.
const PARTS: [(u32, u32, &[u32]); 3] = [(90, 190, &[2]), (200, 300, &[1, 1]), (400, 500, &[3])];
const LINE_90: &str = "the partition at block 90 is sound: 1 file, 3 blocks owned, 97 free\n";
const LINE_200: &str = "the partition at block 200 is sound: 2 files, 4 blocks owned, 96 free\n";
const LINE_400: &str = "the partition at block 400 is sound: 1 file, 4 blocks owned, 96 free\n";
const ROW_90: &str = "at block 90 sound 1 file, 3 blocks owned, 97 free\n";
const ROW_200: &str = "at block 200 sound 2 files, 4 blocks owned, 96 free\n";
const ROW_400: &str = "at block 400 sound 1 file, 4 blocks owned, 96 free\n";
const ROW_402: &str =
    "at block 402 not taken it looks like a partition, but shares blocks with that at block 400, which the table lists\n";
const LINE_402: &str =
    "block 402 looks like a partition, but shares blocks with that at block 400, which the table lists: it is not taken for one\n";
const LOST: &str = "refused (2): the table lists block 200, at which no good partition starts\n";

fn lda(block: u32) -> [u8; 4] {
    reference::lbn_to_lda(0, block).a.to_le_bytes()
}

/// A disk with the three partitions, all sound, and a table that lists these blocks.
fn disk(listed: &[u32]) -> Vec<u8> {
    let mut image = vec![0; RECORD * BLOCKS as usize];
    PARTS.iter().for_each(|&(s, e, lengths)| put(&mut image, s, e, lengths));
    for (i, &block) in listed.iter().enumerate() {
        set_bytes(&mut image, 0, 122 + 2 * i, &lda(block));
    }
    image
}

/// Puts a sound partition into a disk.
fn put(image: &mut [u8], s: u32, e: u32, lengths: &[u32]) {
    let part = scattered(0, BLOCKS, s, e, lengths, u64::from(s));
    let bytes = RECORD * s as usize..RECORD * (e as usize + 1);
    image[bytes.clone()].copy_from_slice(&part[bytes]);
}

/// Lets the data of a block look like the first block of a partition.
fn pretend(image: &mut [u8], s: u32, e: u32) {
    set_bytes(image, s, 114, &[[0; 4], [0; 4], lda(s), lda(e)].concat());
}

/// Takes from a partition's own block where it starts and ends.
fn lose(image: &mut [u8], s: u32) {
    set_bytes(image, s, 118, &[0; 8]);
}

/// Lets a partition's own block count its free blocks wrong.
fn break_at(image: &mut [u8], s: u32) {
    set_word(image, s, 4, 7);
}

/// All three listed, and the second one's own block lost.
fn with_a_lost_one() -> Vec<u8> {
    let mut image = disk(&[90, 200, 400]);
    lose(&mut image, 200);
    image
}

/// All three listed, and a data block of the third one's file that looks like a partition.
fn with_one_inside() -> Vec<u8> {
    let mut image = disk(&[90, 200, 400]);
    pretend(&mut image, 402, 420);
    image
}

/// The partition at 90, and one at 200 that shares blocks with one at 250; the table lists these blocks.
fn sharing(listed: &[u32]) -> Vec<u8> {
    let mut image = disk(listed);
    lose(&mut image, 400);
    pretend(&mut image, 250, 350);
    image
}

/// What the reference makes of these partitions of a disk.
fn repaired(image: &[u8], blocks: &[u32]) -> Vec<u8> {
    let mut image = image.to_vec();
    for &s in blocks {
        assert_eq!(reference::repair(&mut image, 0, s, ALL).outcome, reference::DONE);
    }
    image
}

#[track_caller]
fn says(folder: &Folder, words: &str, status: i32, out: &str, err: &str) {
    assert_eq!(said(folder, words), (status, out.to_string(), err.to_string()), "{words}");
}

/// The report of a batch over one image: what came of it, the remark, and the rows of its partitions.
fn report(outcome: &str, remark: &str, rows: &[&str]) -> String {
    let outcomes =
        ["sound", "repaired", "set aside", "another file", "refused", "wrong use", "unreadable"];
    let counts = outcomes.map(|each| format!("{} {each}", u32::from(each == outcome)));
    let rows = rows.concat();
    format!("image outcome\ndisk {outcome} {remark}\n{rows}\n{}\n", counts.join(", "))
}

/// The lines of check, as repair has them where it leaves all partitions alone.
fn left(lines: &str) -> String {
    lines.replace("is sound: ", "is sound, nothing to repair: ")
}

/// The object that a command prints, and its exit status.
fn object(folder: &Folder, words: &str) -> (i32, Value) {
    let (status, out, _) = said(folder, &format!("{words} --json"));
    (status, serde_json::from_str(&out).expect("JSON"))
}

/// The object of an image in each of the three commands, which all have this exit status.
fn objects(image: &[u8], status: i32) -> [Value; 3] {
    ["check FOLDER/disk", "repair FOLDER/disk", "batch FOLDER"].map(|words| {
        let (found, mut object) = object(&with(image), words);
        assert_eq!(found, status, "{words}: {object}");
        if words.starts_with("batch") {
            object["images"][0].take()
        } else {
            object
        }
    })
}

#[test]
fn a_listed_partition_that_lost_its_own_block_has_its_line_and_counts() {
    let folder = with(&with_a_lost_one());
    let lost = format!("at block 200 refused {LOST}");
    let text = report("refused", "3 partitions", &[ROW_90, &lost, ROW_400]);
    says(&folder, "batch FOLDER", 1, &text, "");
    let lines = [LINE_90, LOST, LINE_400].concat();
    says(&folder, "check FOLDER/disk", 1, &lines, "");
    says(&folder, "repair FOLDER/disk", 1, &left(&lines), "");
    assert_eq!(folder.names(), ["disk"]);
}

#[test]
fn the_others_are_repaired_where_one_is_lost() {
    let mut image = with_a_lost_one();
    break_at(&mut image, 400);
    let expected = repaired(&image, &[400]);
    for words in ["batch FOLDER", "repair FOLDER/disk"] {
        let folder = with(&image);
        let (status, out, _) = said(&folder, words);
        assert_eq!(status, 1, "{out}");
        assert!(out.contains(LOST), "{out}");
        assert!(folder.read("disk.repaired") == expected, "{words}");
        assert!(folder.read("disk") == image, "{words}");
    }
}

#[test]
fn a_single_listed_partition_that_is_lost_is_no_empty_image() {
    let mut image = disk(&[200]);
    [90, 200, 400].into_iter().for_each(|s| lose(&mut image, s));
    let folder = with(&image);
    says(&folder, "batch FOLDER", 1, &report("refused", LOST.trim_end(), &[]), "");
    for command in ["check", "repair"] {
        says(&folder, &format!("{command} FOLDER/disk"), 1, "", &format!("tapermoss: {LOST}"));
    }
}

#[test]
fn json_tells_of_every_partition_the_same_in_all_three_commands() {
    let sound = json!({
        "first": 90, "last": 190, "listed": true, "shares_with": null, "outcome": "sound",
        "number": null, "block": null, "sentence": null,
        "files": 1, "owned": 3, "free": 97, "records_changed": 0,
    });
    let lost = json!({
        "first": 200, "last": null, "listed": true, "shares_with": null, "outcome": "refused",
        "number": 2, "block": null, "sentence": LOST.trim_end(),
        "files": null, "owned": null, "free": null, "records_changed": 0,
    });
    for object in objects(&with_a_lost_one(), 1) {
        assert_eq!(object["partitions"].as_array().expect("a list").len(), 3, "{object}");
        assert_eq!(object["partitions"][0], sound);
        assert_eq!(object["partitions"][1], lost);
        assert_eq!(object["partitions"][2]["first"], 400);
        assert_eq!(object["not_taken"], json!([]));
        let own = ["outcome", "number", "block", "sentence"].map(|name| object[name].clone());
        assert_eq!(own, [json!("refused"), json!(2), json!(null), json!(LOST.trim_end())]);
    }
}

#[test]
fn an_unlisted_good_partition_apart_has_its_line() {
    let image = disk(&[90, 200]);
    let folder = with(&image);
    let text = report("sound", "3 partitions", &[ROW_90, ROW_200, ROW_400]);
    says(&folder, "batch FOLDER", 0, &text, "");
    let lines = [LINE_90, LINE_200, LINE_400].concat();
    says(&folder, "check FOLDER/disk", 0, &lines, "");
    says(&folder, "repair FOLDER/disk", 0, &left(&lines), "");
    for object in objects(&image, 0) {
        assert_eq!(object["outcome"], "sound");
        let listed: Vec<&Value> = (0..3).map(|i| &object["partitions"][i]["listed"]).collect();
        assert_eq!(listed, [true, true, false]);
    }
}

#[test]
fn an_unlisted_good_partition_apart_counts_in_the_status() {
    let mut unsound = disk(&[90, 200]);
    break_at(&mut unsound, 400);
    assert_eq!(said(&with(&unsound), "check FOLDER/disk").0, 1);
    for words in ["batch FOLDER", "repair FOLDER/disk"] {
        let folder = with(&unsound);
        assert_eq!(said(&folder, words).0, 3, "{words}");
        assert!(folder.read("disk.repaired") == repaired(&unsound, &[400]), "{words}");
    }
    let mut malformed = disk(&[90, 200]);
    set_word(&mut malformed, 401, 249, 99);
    for object in objects(&malformed, 4) {
        let third = &object["partitions"][2];
        let own = ["outcome", "number", "block"].map(|name| third[name].clone());
        assert_eq!(own, [json!("set aside"), json!(4), json!(401)], "{object}");
        assert_eq!(object["block"], 401);
    }
}

#[test]
fn one_inside_a_listed_one_is_mentioned() {
    let image = with_one_inside();
    let folder = with(&image);
    let text = report("sound", "3 partitions", &[ROW_90, ROW_200, ROW_400, ROW_402]);
    says(&folder, "batch FOLDER", 0, &text, "");
    let lines = [LINE_90, LINE_200, LINE_400].concat();
    says(&folder, "check FOLDER/disk", 0, &lines, LINE_402);
    says(&folder, "repair FOLDER/disk", 0, &left(&lines), LINE_402);
    for object in objects(&image, 0) {
        let inside = json!([{"first": 402, "last": 420, "listed": false, "shares_with": 400}]);
        assert_eq!(object["not_taken"], inside);
        assert_eq!(object["partitions"].as_array().expect("a list").len(), 3);
    }
}

#[test]
fn one_inside_a_listed_one_is_never_repaired() {
    let mut image = with_one_inside();
    put(&mut image, 450, 470, &[1]);
    [400, 450].into_iter().for_each(|s| break_at(&mut image, s));
    let expected = repaired(&image, &[400]);
    for words in ["batch FOLDER", "repair FOLDER/disk", "repair FOLDER/disk --force"] {
        let folder = with(&image);
        let (status, out, err) = said(&folder, words);
        assert_eq!(status, 3, "{words}: {out}");
        assert!((out + &err).contains("block 450 "), "{words}: {err}");
        assert!(folder.read("disk.repaired") == expected, "{words}");
    }
}

#[test]
fn one_in_what_may_be_the_blocks_of_a_lost_one_is_not_repaired() {
    let mut image = disk(&[90, 200, 400]);
    put(&mut image, 250, 270, &[1]);
    break_at(&mut image, 250);
    lose(&mut image, 200);
    for words in ["batch FOLDER", "repair FOLDER/disk"] {
        let folder = with(&image);
        let (_, out, err) = said(&folder, words);
        assert!((out + &err).contains("block 250 "), "{words}");
        assert_eq!(folder.names(), ["disk"], "{words}");
    }
}

/// A disk with an unsound partition of one file in blocks of a listed one.
fn with_an_unsound_one_inside() -> Vec<u8> {
    let mut image = disk(&[90, 200, 400]);
    put(&mut image, 450, 470, &[1]);
    break_at(&mut image, 450);
    image
}

#[test]
fn one_inside_a_listed_one_is_repaired_by_name_and_force_alone() {
    let image = with_an_unsound_one_inside();
    let folder = with(&image);
    let (status, out, err) = said(&folder, "repair FOLDER/disk --partition 450");
    assert_eq!((status, out.as_str()), (4, ""));
    let told = "\
tapermoss: the partition at block 450: repair would change blocks of the partition at block 400, so it wants --force
";
    assert!(err.starts_with(told), "{err}");
    assert_eq!(folder.names(), ["disk"]);

    let (status, _, _) = said(&folder, "repair FOLDER/disk --partition 450 --force");
    assert_eq!(status, 3);
    assert!(folder.read("disk.repaired") == repaired(&image, &[450]));
}

#[test]
fn one_that_was_named_is_not_said_to_be_none() {
    let folder = with(&with_an_unsound_one_inside());
    let (status, out, err) = said(&folder, "repair FOLDER/disk --partition 450 --force");
    assert_eq!(status, 3, "{out}");
    assert!(out.starts_with("the partition at block 450 is repaired, "), "{out}");
    assert!(!err.contains("block 450"), "{err}");
}

#[test]
fn check_does_not_promise_a_repair_that_wants_force() {
    let folder = with(&with_an_unsound_one_inside());
    assert_eq!(said(&folder, "repair FOLDER/disk --partition 450").0, 4);
    let (status, out, err) = said(&folder, "check FOLDER/disk --partition 450");
    assert_eq!((status, out.as_str()), (1, ""));
    assert!(err.contains("the partition at block 450 is not sound"), "{err}");
    assert!(!err.contains("repair mends it"), "{err}");
}

#[test]
fn one_that_only_reaches_into_a_listed_one_is_not_said_to_lie_in_it() {
    let mut image = disk(&[90, 200, 400]);
    pretend(&mut image, 195, 250);
    let folder = with(&image);
    for words in ["batch FOLDER", "check FOLDER/disk", "partitions FOLDER/disk"] {
        let (_, out, err) = said(&folder, words);
        let text = out + &err;
        assert!(text.contains("block 195 "), "{text}");
        let told = "looks like a partition, but shares blocks with that at block 200, which the table lists";
        assert!(text.contains(told), "{text}");
    }
}

const SHARED: &str = "\
the partitions at blocks 200 and 250 share blocks, and the table does not decide between them: --partition names one
";

#[test]
fn two_that_share_blocks_are_set_aside_and_a_third_is_repaired() {
    for listed in [&[90, 200, 250][..], &[90], &[]] {
        let mut image = sharing(listed);
        let (status, out, err) = said(&with(&image), "check FOLDER/disk");
        assert_eq!((status, err.as_str()), (4, ""), "{listed:?}");
        assert_eq!(out, [LINE_90, SHARED, SHARED].concat(), "{listed:?}");
        break_at(&mut image, 90);
        for words in ["batch FOLDER", "repair FOLDER/disk"] {
            let folder = with(&image);
            let (status, out, _) = said(&folder, words);
            assert_eq!((status, out.matches(SHARED).count()), (4, 2), "{words}: {out}");
            assert!(folder.read("disk.repaired") == repaired(&image, &[90]), "{words}");
        }
    }
}

#[test]
fn json_tells_of_those_that_share_blocks() {
    for object in objects(&sharing(&[200, 90, 250]), 4) {
        assert_eq!(object["outcome"], "set aside");
        assert_eq!(object["sentence"], SHARED.trim_end());
        let outcomes: Vec<&Value> = (0..3).map(|i| &object["partitions"][i]["outcome"]).collect();
        assert_eq!(outcomes, ["sound", "set aside", "set aside"]);
        let numbers: Vec<&Value> = (0..3).map(|i| &object["partitions"][i]["number"]).collect();
        assert_eq!(numbers, [&Value::Null; 3]);
    }
}

#[test]
fn one_of_two_that_share_blocks_is_repaired_by_its_name() {
    let mut image = sharing(&[90, 200, 250]);
    break_at(&mut image, 200);
    let folder = with(&image);
    let (status, out, err) = said(&folder, "repair FOLDER/disk --partition 200");
    assert_eq!((status, err.as_str()), (3, ""), "{out}");
    assert!(folder.read("disk.repaired") == repaired(&image, &[200]));
}

#[test]
fn the_table_decides_between_two_that_share_blocks() {
    let mut image = sharing(&[90, 200]);
    break_at(&mut image, 200);
    for words in ["batch FOLDER", "repair FOLDER/disk"] {
        let folder = with(&image);
        let (status, out, err) = said(&folder, words);
        assert_eq!(status, 3, "{words}: {out}");
        assert!((out + &err).contains("block 250 "), "{words}: {err}");
        assert!(folder.read("disk.repaired") == repaired(&image, &[200]), "{words}");
    }
}

#[test]
fn partitions_tells_of_lost_ones_and_of_those_inside() {
    let mut image = with_one_inside();
    lose(&mut image, 200);
    let folder = with(&image);
    let (status, out, _) = said(&folder, "partitions FOLDER/disk");
    let rows = "90 190 101 yes -\n400 500 101 yes -\n402 420 19 no -\n";
    let lost = LOST.trim_start_matches("refused (2): ");
    assert_eq!(status, 0);
    assert!(out.ends_with(&[rows, LINE_402, lost].concat()), "{out}");
    let (_, object) = object(&folder, "partitions FOLDER/disk");
    let inside: Vec<&Value> = (0..3).map(|i| &object["partitions"][i]["shares_with"]).collect();
    assert_eq!(inside, [&json!(null), &json!(null), &json!(400)]);
    assert_eq!(object["listed_but_not_good"], json!([200]));
}

/// The commands that are about one partition, with an image in which file 401 has three blocks.
const ABOUT_ONE: [&str; 8] = [
    "files FOLDER/disk",
    "cat FOLDER/disk --file 401 --json",
    "show FOLDER/disk --file 401 --block 1",
    "map FOLDER/disk --output FOLDER/map.svg",
    "create FOLDER/disk --output FOLDER/created",
    "write FOLDER/disk --file 401 --from FOLDER/bytes --output FOLDER/written",
    "describe FOLDER/disk --file 401 --name letter --output FOLDER/described",
    "destroy FOLDER/disk --file 401 --output FOLDER/destroyed",
];

/// A disk whose table lists one partition, in which a data block looks like another one.
fn with_one_listed() -> Vec<u8> {
    let mut image = disk(&[400]);
    [90, 200].into_iter().for_each(|s| lose(&mut image, s));
    pretend(&mut image, 402, 420);
    image
}

#[test]
fn commands_for_one_partition_take_the_listed_one() {
    let image = with_one_listed();
    let folder = with(&image);
    folder.put("bytes", &[5; 512]);
    for words in ABOUT_ONE {
        let (status, _, err) = said(&folder, words);
        assert_eq!((status, err.as_str()), (0, ""), "{words}");
    }
    let disk = folder.text("disk");
    let whole: Vec<u8> =
        (402..405).flat_map(|b| image[RECORD * b + HEADER..RECORD * (b + 1)].to_vec()).collect();
    assert!(tapermoss(&["cat", &disk, "--file", "401"]).stdout == whole);
    let shown = tapermoss(&["show", &disk, "--file", "401", "--block", "1", "--raw"]);
    assert!(shown.stdout == whole[512..1024]);
    let mut expected = image;
    reference::destroy(&mut expected, 0, 400, 401, ALL);
    assert!(folder.read("destroyed") == expected);
}

#[test]
fn commands_for_one_partition_ask_which_where_a_lost_one_is_beside() {
    let mut image = with_one_listed();
    set_bytes(&mut image, 0, 124, &lda(200));
    let folder = with(&image);
    folder.put("bytes", &[5; 512]);
    let told =
        "tapermoss: the image has 2 partitions, at blocks 200, 400: name one with --partition\n";
    for words in ABOUT_ONE {
        let (status, _, err) = said(&folder, words);
        assert_eq!((status, err.as_str()), (2, told), "{words}");
    }
    assert_eq!(folder.names(), ["bytes", "disk"]);
    for words in ABOUT_ONE {
        let (status, _, err) = said(&folder, &format!("{words} --partition 400"));
        assert_eq!((status, err.as_str()), (0, ""), "{words}");
    }
}
