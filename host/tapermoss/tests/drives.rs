//! The drive of an image: what the size decides, what a person insists on, and what is tried where nothing is known. An
//! image read as another drive's has no files, so the repair that would empty it is asked for twice.

mod common;

use common::{said, sample, set_bytes, set_word, unsound, with, Folder};
use reference::sample::{blank, fresh, scattered};
use serde_json::{json, Value};

const BLOCKS: u32 = 24_210;
const ALL: u32 = u32::MAX;

/// A sound disk of 12 MB with three files, none of whose blocks has the same address on another drive.
fn disk() -> Vec<u8> {
    scattered(0, BLOCKS, 90, 400, &[3, 0, 70], 7)
}

/// The same, but nine of the twelve files have addresses that are those of drive 1 too: these are the blocks below 90.
fn across() -> Vec<u8> {
    scattered(0, BLOCKS, 80, 400, &[1, 0, 2, 1, 0, 2, 1, 0, 2, 1, 0, 2], 7)
}

/// What the reference makes of a partition.
fn repaired(image: &[u8], drive: u32, s: u32) -> Vec<u8> {
    let mut image = image.to_vec();
    assert_eq!(reference::repair(&mut image, drive, s, ALL).outcome, reference::DONE);
    image
}

/// A command that ends so, with this sentence and nothing on standard output.
#[track_caller]
fn complains(folder: &Folder, words: &str, status: i32, sentence: &str) {
    let told = format!("tapermoss: {sentence}\n");
    assert_eq!(said(folder, words), (status, String::new(), told), "{words}");
}

/// A batch over the one image, which ends so with this row.
#[track_caller]
fn reports(folder: &Folder, words: &str, status: i32, row: &str) {
    let (found, out, _) = said(folder, words);
    assert_eq!((found, out.lines().nth(1)), (status, Some(row)), "{words}: {out}");
}

/// Every command that takes an image and a drive, without the drive.
const COMMANDS: [&str; 12] = [
    "partitions FOLDER/disk",
    "check FOLDER/disk",
    "files FOLDER/disk",
    "cat FOLDER/disk --file 91",
    "show FOLDER/disk --file 91 --block 0",
    "show --original FOLDER/disk --repaired FOLDER/disk --file 91 --block 0",
    "map FOLDER/disk --output FOLDER/map.png",
    "repair FOLDER/disk",
    "create FOLDER/disk --output FOLDER/created",
    "write FOLDER/disk --file 91 --from FOLDER/bytes --output FOLDER/written",
    "describe FOLDER/disk --file 91 --name letter --output FOLDER/described",
    "destroy FOLDER/disk --file 91 --output FOLDER/destroyed",
];

const WRONG: &str = "the image has 24210 blocks, as drive 0 (Shugart 12 MB) has, and not drive 1 \
                     (Shugart 24 MB); --force-drive insists on it";

#[test]
fn a_drive_that_the_size_contradicts_is_refused_by_every_command() {
    let folder = with(&disk());
    folder.put("bytes", &[5; 512]);
    for words in COMMANDS {
        complains(&folder, &format!("{words} --drive 1"), 2, WRONG);
    }
    assert_eq!(folder.names(), ["bytes", "disk"]);
    let told = WRONG.replace("drive 1 (Shugart 24 MB)", "drive 3 (floppy, single-sided)");
    complains(&folder, "check FOLDER/disk --drive floppy", 2, &told);
}

#[test]
fn a_batch_with_the_wrong_drive_empties_nothing() {
    let mut unsound_disk = disk();
    set_word(&mut unsound_disk, 90, 4, 7);
    for image in [disk(), unsound_disk] {
        let folder = with(&image);
        folder.put("floppy", &unsound());
        reports(&folder, "batch FOLDER --drive 1", 2, &format!("disk wrong use {WRONG}"));
        assert_eq!(folder.names(), ["disk", "floppy"]);
        assert!(folder.read("disk") == image);
        let report: Value =
            serde_json::from_str(&said(&folder, "batch FOLDER --drive 1 --json").1).expect("JSON");
        assert_eq!((&report["outcome"], &report["wrong_use"]), (&json!("wrong use"), &json!(2)));
        assert_eq!(report["images"][0]["sentence"], WRONG);
    }
}

#[test]
fn the_drive_that_the_size_decides_may_be_named() {
    let folder = with(&disk());
    folder.put("bytes", &[5; 512]);
    for words in COMMANDS {
        let (status, _, err) = said(&folder, &format!("{words} --drive shugart12"));
        assert_eq!((status, err.as_str()), (0, ""), "{words}");
    }
    let row = "disk sound 3 files, 77 blocks owned, 233 free";
    reports(&with(&disk()), "batch FOLDER --drive 0", 0, row);
}

#[test]
fn the_drive_is_what_is_insisted_on() {
    let folder = with(&disk());
    let (status, out, _) = said(&folder, "partitions FOLDER/disk --drive 1 --force-drive");
    assert_eq!(status, 0);
    assert!(out.starts_with("drive 1 (Shugart 24 MB)\n"), "{out}");
    let (status, out, _) = said(&folder, "files FOLDER/disk --drive 1 --force-drive --json");
    let found: Value = serde_json::from_str(&out).expect("JSON");
    assert_eq!((status, &found["files"]), (0, &json!([])));
    let (status, _, err) = said(&folder, "check FOLDER/disk --force-drive");
    assert_eq!(status, 2, "{err}");
    let told =
        "refused (1): the image has 24210 blocks, and drive 3 (floppy, single-sided) only 432";
    complains(&folder, "check FOLDER/disk --drive 3 --force-drive", 1, told);
}

#[test]
fn the_size_of_the_original_decides_where_the_other_of_a_pair_is_no_image() {
    let folder = with(&disk());
    folder.put("letter", b"This is no image.");
    folder.put("short", &[0; 528 * 40]);
    for repaired in ["letter", "short"] {
        let pair = format!("show --original FOLDER/disk --repaired FOLDER/{repaired}");
        complains(&folder, &format!("{pair} --file 91 --block 0 --drive 1"), 2, WRONG);
    }
}

/// What is said of so many blocks of no drive.
fn unknown(blocks: u32, found: &str) -> String {
    format!("the image has {blocks} blocks, as no drive has: name its drive with --drive; it has {found}")
}

#[test]
fn where_nothing_is_known_the_drives_that_fit_are_named() {
    let mut torn = scattered(0, 40, 1, 39, &[3, 0], 7);
    set_word(&mut torn, 2, 249, 99);
    let both = "2 files as drive 0 (Shugart 12 MB), 2 files as drive 1 (Shugart 24 MB)";
    let images = [
        (40, scattered(0, 40, 1, 39, &[3, 0], 7), both),
        (40, torn, "1 file as drive 0 (Shugart 12 MB), 1 file as drive 1 (Shugart 24 MB)"),
        (300, scattered(0, 300, 90, 299, &[3, 0], 7), "2 files as drive 0 (Shugart 12 MB)"),
        (300, scattered(1, 300, 90, 299, &[3], 7), "1 file as drive 1 (Shugart 24 MB)"),
        (300, scattered(2, 300, 90, 299, &[3], 7), "1 file as drive 2 (Micropolis 35 MB)"),
        (100, scattered(3, 100, 6, 99, &[3], 7), "1 file as drive 3 (floppy, single-sided)"),
        (40, fresh(0, 40, 1, 39), "no file as any of the four"),
        (40, vec![0; 528 * 40], "no file as any of the four"),
    ];
    for (blocks, image, found) in images {
        let folder = with(&image);
        let told = unknown(blocks, found);
        for command in ["check", "repair", "files", "partitions", "create"] {
            complains(&folder, &format!("{command} FOLDER/disk"), 2, &told);
        }
        reports(&folder, "batch FOLDER", 2, &format!("disk wrong use {told}"));
        assert_eq!(folder.names(), ["disk"]);
    }
}

#[test]
fn a_file_is_counted_once_where_nothing_is_known() {
    let mut image = scattered(0, 300, 90, 299, &[3], 7);
    let inner = scattered(0, 300, 200, 220, &[1], 7);
    image[528 * 200..528 * 221].copy_from_slice(&inner[528 * 200..528 * 221]);
    set_bytes(&mut image, 0, 122, &reference::lbn_to_lda(0, 90).a.to_le_bytes());
    let folder = with(&image);
    let (_, out, _) = said(&folder, "files FOLDER/disk --drive 0 --json");
    let found: Value = serde_json::from_str(&out).expect("JSON");
    assert_eq!(found["files"].as_array().expect("a list").len(), 2);
    complains(&folder, "check FOLDER/disk", 2, &unknown(300, "2 files as drive 0 (Shugart 12 MB)"));
}

/// An image that repair would lose files of: the words that name its drive, the drive, the partition's first block, and
/// why one hesitates.
fn risky() -> [(Vec<u8>, &'static str, u32, u32, &'static str); 5] {
    let emptied = "repair would leave 0 files where drive 0 (Shugart 12 MB) has 3 file blocks, so it wants --force";
    let fewer = "repair would leave 9 files where drive 0 (Shugart 12 MB) has 12 file blocks, so it wants --force";
    let one = "repair would leave 0 files where drive 2 (Micropolis 35 MB) has 1 file block, so it wants --force";
    let none = "repair would leave 0 files, so it wants --force";
    let mut torn = scattered(2, 300, 90, 299, &[3], 7);
    set_word(&mut torn, 91, 249, 99);
    [
        (blank(0, BLOCKS, 90, 400), "", 0, 90, none),
        (blank(3, 432, 6, 431), "", 3, 6, none),
        (torn, " --drive 0", 0, 90, one),
        (disk(), " --drive 1 --force-drive", 1, 90, emptied),
        (across(), " --drive 1 --force-drive", 1, 80, fewer),
    ]
}

#[test]
fn a_repair_that_would_lose_files_says_so_and_is_not_made() {
    for (image, drive, _, s, doubt) in risky() {
        let folder = with(&image);
        for more in ["", " --in-place", &format!(" --partition {s}")] {
            let (status, out, err) = said(&folder, &format!("repair FOLDER/disk{drive}{more}"));
            assert_eq!((status, out.as_str()), (4, ""), "{more}");
            assert_eq!(err, format!("tapermoss: the partition at block {s}: {doubt}\n"), "{more}");
        }
        let (status, out, _) = said(&folder, &format!("batch FOLDER{drive}"));
        let told = format!("\ndisk set aside the partition at block {s}: {doubt}\n");
        assert_eq!(status, 4, "{out}");
        assert!(out.contains(&told), "{out}");
        assert_eq!(folder.names(), ["disk"]);
        assert!(folder.read("disk") == image);
    }
}

#[test]
fn json_tells_of_a_repair_that_would_lose_files() {
    for (image, drive, _, s, doubt) in risky() {
        let folder = with(&image);
        for words in ["repair FOLDER/disk", "batch FOLDER"] {
            let (status, out, _) = said(&folder, &format!("{words}{drive} --json"));
            let found: Value = serde_json::from_str(&out).expect("JSON");
            assert_eq!((status, &found["outcome"]), (4, &json!("set aside")));
            let told = found["sentence"].as_str().expect("a sentence");
            assert!(told.starts_with(&format!("the partition at block {s}: {doubt}")), "{told}");
        }
    }
}

#[test]
fn check_says_so_too_and_promises_no_repair() {
    for (image, drive, _, s, doubt) in risky() {
        let (status, out, err) = said(&with(&image), &format!("check FOLDER/disk{drive}"));
        assert_eq!((status, out.as_str()), (1, ""));
        let told =
            format!("tapermoss: refused (5): the partition at block {s} is not sound; {doubt}\n");
        assert_eq!(err, told);
    }
}

#[test]
fn with_force_such_a_repair_is_made() {
    for (image, drive, number, s, _) in risky() {
        for words in ["repair FOLDER/disk", "batch FOLDER"] {
            let folder = with(&image);
            let (status, out, err) = said(&folder, &format!("{words}{drive} --force"));
            assert_eq!((status, err.as_str()), (3, ""), "{words}: {out}");
            assert!(folder.read("disk.repaired") == repaired(&image, number, s), "{words}");
            assert!(folder.read("disk") == image, "{words}");
        }
    }
}

#[test]
fn a_repair_on_the_right_drive_asks_for_nothing() {
    let images = [(across(), 0, 80), (disk(), 0, 90), (sample(), 3, 6)];
    for (mut image, drive, s) in images {
        set_word(&mut image, s, 4, 7);
        for words in ["repair FOLDER/disk", "batch FOLDER"] {
            let folder = with(&image);
            let (status, out, err) = said(&folder, words);
            assert_eq!((status, err.as_str()), (3, ""), "{words}: {out}");
            assert!(folder.read("disk.repaired") == repaired(&image, drive, s), "{words}");
        }
        let (status, _, err) = said(&with(&image), "check FOLDER/disk");
        assert_eq!(status, 1);
        assert!(err.ends_with(" is not sound; repair mends it\n"), "{err}");
    }
}
