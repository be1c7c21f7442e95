//! Where a repair goes and what it leaves alone: all partitions or the one that is named, a sound one not at all, and
//! IMAGE.repaired only if it holds nothing but repairs of this image. The expected images are those of the reference.

mod common;

use common::{differing, pipe, said, sample, set_bytes, set_word, unsound, with, Folder};
use reference::image::RECORD;
use reference::sample::{blank, scattered};
use serde_json::{json, Value};
use std::fs;
use std::os::unix::fs::symlink;
use std::time::{Duration, SystemTime};

const BLOCKS: u32 = 24_210;
const ALL: u32 = u32::MAX;

/// A sound disk with partitions at 90, 200 and 400, all listed; the seed decides what its files hold.
fn sound_disk(seed: u64) -> Vec<u8> {
    let mut image = vec![0; RECORD * BLOCKS as usize];
    let lengths: [&[u32]; 3] = [&[2], &[1, 1], &[3]];
    for (i, (s, lengths)) in [90, 200, 400].into_iter().zip(lengths).enumerate() {
        put(&mut image, s, &scattered(0, BLOCKS, s, s + 100, lengths, seed));
        set_bytes(&mut image, 0, 122 + 2 * i, &reference::lbn_to_lda(0, s).a.to_le_bytes());
    }
    image
}

/// The same, but the partitions at 90 and 200 are not sound.
fn disk() -> Vec<u8> {
    let mut image = sound_disk(7);
    set_word(&mut image, 90, 4, 7);
    set_word(&mut image, 200, 4, 7);
    image
}

/// The same, but the partition at 200 has never had a file.
fn with_a_blank_one() -> Vec<u8> {
    let mut image = disk();
    put(&mut image, 200, &blank(0, BLOCKS, 200, 300));
    image
}

/// Takes the partition at s, of 101 blocks, from another disk.
fn put(image: &mut [u8], s: u32, other: &[u8]) {
    let bytes = RECORD * s as usize..RECORD * (s as usize + 101);
    image[bytes.clone()].copy_from_slice(&other[bytes]);
}

/// What the reference makes of these partitions.
fn repaired(image: &[u8], drive: u32, blocks: &[u32]) -> Vec<u8> {
    let mut image = image.to_vec();
    for &s in blocks {
        assert_eq!(reference::repair(&mut image, drive, s, ALL).outcome, reference::DONE);
    }
    image
}

/// A command that ends with this status; answers all that it says.
#[track_caller]
fn ends(folder: &Folder, words: &str, status: i32) -> String {
    let (found, out, err) = said(folder, words);
    assert_eq!(found, status, "{words}: {out}{err}");
    out + &err
}

fn object(folder: &Folder, words: &str) -> Value {
    serde_json::from_str(&said(folder, &format!("{words} --json")).1).expect("JSON")
}

/// Lets a file be an hour old; answers when it was changed.
fn aged(folder: &Folder, name: &str) -> SystemTime {
    let then = SystemTime::now() - Duration::from_secs(3_600);
    let file = fs::File::options().append(true).open(folder.path(name)).expect("it is ours");
    file.set_modified(then).expect("it is ours");
    changed_at(folder, name)
}

fn changed_at(folder: &Folder, name: &str) -> SystemTime {
    fs::metadata(folder.path(name)).expect("it is there").modified().expect("a time")
}

const REPAIRS: [&str; 2] = ["batch FOLDER", "repair FOLDER/disk"];

#[test]
fn the_same_bytes_are_there_already() {
    let folder = with(&disk());
    let expected = repaired(&disk(), 0, &[90, 200]);
    for words in REPAIRS {
        folder.put("disk.repaired", &expected);
        let then = aged(&folder, "disk.repaired");
        let told = ends(&folder, words, 3);
        let there = ["disk.repaired (there already)", "disk.repaired is there already, the same"];
        assert!(there.iter().any(|there| told.contains(there)), "{told}");
        assert_eq!(changed_at(&folder, "disk.repaired"), then);
        assert!(folder.read("disk.repaired") == expected);
    }
    let report = object(&folder, "batch FOLDER");
    assert_eq!((&report["outcome"], &report["repaired"]), (&json!("repaired"), &json!(1)));
    assert_eq!(report["images"][0]["earlier"], true);
    assert_eq!(report["images"][0]["repaired"], "FOLDER/disk.repaired");
}

/// What may be there under the name of the repair, and is not one.
fn others() -> Vec<(&'static str, Vec<u8>)> {
    let whole = repaired(&disk(), 0, &[90, 200]);
    let flipped = |block: usize| {
        let mut image = whole.clone();
        image[RECORD * block + 100] ^= 1;
        image
    };
    let mut cut = disk();
    reference::repair(&mut cut, 0, 90, 50);
    vec![
        ("another sound disk", sound_disk(8)),
        ("a sound floppy", sample()),
        ("a letter", b"precious".to_vec()),
        ("nothing", Vec::new()),
        ("a byte behind the partitions", flipped(20_000)),
        ("a byte in the device's own block", flipped(0)),
        ("a byte of data in a repaired partition", flipped(92)),
        ("a byte of a free block in a repaired partition", flipped(280)),
        ("a byte in a sound partition", flipped(402)),
        ("a record less", whole[..whole.len() - RECORD].to_vec()),
        ("a record more", [&whole[..], &[0; RECORD]].concat()),
        ("a repair that was cut short", cut),
    ]
}

#[test]
fn another_file_is_kept_and_has_its_own_status() {
    let folder = with(&disk());
    for (name, other) in others() {
        folder.put("disk.repaired", &other);
        let then = aged(&folder, "disk.repaired");
        for words in REPAIRS.into_iter().chain(["repair FOLDER/disk --partition 200"]) {
            let told = ends(&folder, words, 6);
            assert!(told.contains("there is another file: FOLDER/disk.repaired "), "{told}");
            assert!(!told.contains("is repaired") && !told.contains("written"), "{name}: {told}");
            assert!(folder.read("disk.repaired") == other, "{name}: {words}");
            assert_eq!(changed_at(&folder, "disk.repaired"), then, "{name}: {words}");
            assert!(folder.read("disk") == disk(), "{name}: {words}");
        }
        assert_eq!(folder.names(), ["disk", "disk.repaired"]);
    }
}

/// Puts something there that cannot be read; answers why not.
fn put_unreadable(folder: &Folder, sort: &str) -> &'static str {
    let path = folder.path("disk.repaired");
    match sort {
        "folder" => fs::create_dir(path).expect("a folder"),
        "pipe" => pipe(&path),
        "loop" => symlink("disk.repaired", path).expect("a link"),
        _ => symlink("nowhere", path).expect("a link"),
    }
    match sort {
        "folder" => "it is a folder, and an image is a regular file",
        "pipe" => "it is a pipe, and an image is a regular file",
        "loop" => "Too many levels of symbolic links (os error 40)",
        _ => "No such file or directory (os error 2)",
    }
}

#[test]
fn what_cannot_be_read_is_not_said_to_be_another_repair() {
    for words in REPAIRS {
        for sort in ["folder", "pipe", "loop", "link"] {
            let folder = with(&unsound());
            let why = put_unreadable(&folder, sort);
            let (status, out, err) = said(&folder, words);
            let told = format!(
                "there is another file, and it is not compared (cannot read FOLDER/disk.repaired: {why}); both are kept"
            );
            let all = out + &err;
            assert!(all.contains(&told) && !all.contains("repair makes"), "{words} {sort}: {all}");
            assert_eq!(status, 6, "{words} {sort}");
            let promised = all.contains("both are kept, and --force replaces it");
            let (forced, ..) = said(&folder, &format!("{words} --force"));
            assert_eq!(promised, forced == 3, "{words} {sort}: {all}");
            assert_eq!(promised, sort != "folder");
        }
    }
}

#[test]
fn json_tells_of_another_file() {
    let folder = with(&disk());
    folder.put("disk.repaired", &sample());
    let report = object(&folder, "batch FOLDER");
    assert_eq!((&report["outcome"], &report["another_file"]), (&json!("another file"), &json!(1)));
    for object in [object(&folder, "repair FOLDER/disk"), report["images"][0].clone()] {
        assert_eq!(object["outcome"], "another file");
        let outcomes: Vec<&Value> = (0..3).map(|i| &object["partitions"][i]["outcome"]).collect();
        assert_eq!(outcomes, ["another file", "another file", "sound"]);
        assert_eq!(object["partitions"][0]["records_changed"], 0);
        let sentence = object["sentence"].as_str().expect("a sentence");
        assert!(sentence.contains("there is another file"), "{sentence}");
    }
}

#[test]
fn another_file_is_replaced_by_force() {
    for words in REPAIRS {
        let folder = with(&disk());
        folder.put("disk.repaired", &sample());
        ends(&folder, &format!("{words} --force"), 3);
        assert!(folder.read("disk.repaired") == repaired(&disk(), 0, &[90, 200]), "{words}");
    }
}

#[test]
fn repair_mends_all_partitions_or_the_one_that_is_named() {
    let folder = with(&disk());
    let told = ends(&folder, "repair FOLDER/disk --partition 200", 3);
    assert!(told.starts_with("the partition at block 200 is repaired, "), "{told}");
    assert!(!told.contains("block 90") && !told.contains("block 400"), "{told}");
    assert!(folder.read("disk.repaired") == repaired(&disk(), 0, &[200]));

    let folder = with(&disk());
    let told = ends(&folder, "repair FOLDER/disk", 3);
    let lines =
        ["at block 90 is repaired, ", "at block 200 is repaired, ", "at block 400 is sound, "];
    assert!(lines.iter().all(|line| told.contains(line)), "{told}");
    assert!(told.ends_with("written to FOLDER/disk.repaired\n"), "{told}");
    assert!(folder.read("disk.repaired") == repaired(&disk(), 0, &[90, 200]));
    assert!(folder.read("disk") == disk());
}

#[test]
fn the_repair_of_a_second_partition_keeps_the_first_and_says_so() {
    for (first, second) in [(90, 200), (200, 90)] {
        let folder = with(&disk());
        said(&folder, &format!("repair FOLDER/disk --partition {first}"));
        let (status, _, err) = said(&folder, &format!("repair FOLDER/disk --partition {second}"));
        assert!(folder.read("disk.repaired") == repaired(&disk(), 0, &[90, 200]), "{err}");
        let kept = format!("held the repair of the partition at block {first} already; it is kept");
        assert_eq!((status, err), (3, format!("FOLDER/disk.repaired {kept}\n")));
    }
}

#[test]
fn the_rest_is_added_to_the_repair_of_one_partition() {
    for words in REPAIRS {
        let folder = with(&disk());
        ends(&folder, "repair FOLDER/disk --partition 90", 3);
        ends(&folder, words, 3);
        assert!(folder.read("disk.repaired") == repaired(&disk(), 0, &[90, 200]), "{words}");
    }
}

#[test]
fn a_repair_that_force_has_made_is_not_undone_by_the_next() {
    let image = with_a_blank_one();
    for words in REPAIRS {
        let folder = with(&image);
        ends(&folder, "repair FOLDER/disk --partition 200 --force", 3);
        assert!(folder.read("disk.repaired") == repaired(&image, 0, &[200]));
        let told = ends(&folder, words, 4);
        assert!(folder.read("disk.repaired") == repaired(&image, 0, &[90, 200]), "{told}");
    }
}

#[test]
fn a_repair_by_force_keeps_what_is_repaired_already() {
    for image in [disk(), with_a_blank_one()] {
        let folder = with(&image);
        said(&folder, "repair FOLDER/disk --partition 90");
        assert!(folder.read("disk.repaired") == repaired(&image, 0, &[90]));
        let (status, out, err) = said(&folder, "repair FOLDER/disk --partition 200 --force");
        assert!(folder.read("disk.repaired") == repaired(&image, 0, &[90, 200]), "{out}{err}");
        assert_eq!(status, 3);
    }
}

#[test]
fn a_sound_partition_that_was_repaired_anyway_stays_so() {
    let folder = with(&disk());
    ends(&folder, "repair FOLDER/disk --partition 400 --anyway", 3);
    assert!(folder.read("disk.repaired") == repaired(&disk(), 0, &[400]));
    let told = ends(&folder, "repair FOLDER/disk", 3);
    assert!(folder.read("disk.repaired") == repaired(&disk(), 0, &[90, 200, 400]), "{told}");
}

#[test]
fn a_repair_that_is_cut_short_takes_no_whole_one_s_place() {
    let folder = with(&unsound());
    ends(&folder, "repair FOLDER/disk", 3);
    let (status, out, err) = said(&folder, "repair FOLDER/disk --limit 5");
    let whole = repaired(&unsound(), 3, &[6]);
    assert!(folder.read("disk.repaired") == whole, "{status}: {out}{err}");
}

#[test]
fn a_listed_block_behind_the_end_of_the_image_stops_no_second_run() {
    let mut image = scattered(0, 300, 90, 299, &[2], 7);
    for (i, s) in [90, 5_000].into_iter().enumerate() {
        set_bytes(&mut image, 0, 122 + 2 * i, &reference::lbn_to_lda(0, s).a.to_le_bytes());
    }
    set_word(&mut image, 90, 4, 7);
    for words in REPAIRS {
        let folder = with(&image);
        for _ in 0..2 {
            let told = ends(&folder, &format!("{words} --drive 0"), 1);
            assert!(told.contains("the table lists block 5000, at which no good "), "{told}");
            assert!(folder.read("disk.repaired") == repaired(&image, 0, &[90]));
        }
    }
}

/// Sound images: a floppy, one with a file that was destroyed, and a disk; each with its drive and partitions.
fn sound() -> [(Vec<u8>, u32, Vec<u32>); 3] {
    let mut destroyed = sample();
    assert_eq!(reference::destroy(&mut destroyed, 3, 6, 9, ALL).outcome, reference::DONE);
    [(sample(), 3, vec![6]), (destroyed, 3, vec![6]), (sound_disk(7), 0, vec![90, 200, 400])]
}

#[test]
fn a_sound_image_is_left_as_it_is() {
    for (image, drive, blocks) in sound() {
        let folder = with(&image);
        let then = aged(&folder, "disk");
        assert!(repaired(&image, drive, &blocks) != image);
        for more in ["", " --in-place", " --force", &format!(" --partition {}", blocks[0])] {
            let (status, out, _) = said(&folder, &format!("repair FOLDER/disk{more}"));
            assert_eq!(folder.names(), ["disk"], "{more}");
            assert!(folder.read("disk") == image, "{more}");
            assert_eq!(changed_at(&folder, "disk"), then, "{more}");
            let told =
                format!("the partition at block {} is sound, nothing to repair: ", blocks[0]);
            assert_eq!((status, out.starts_with(&told)), (0, true), "{out}");
        }
    }
}

#[test]
fn a_sound_image_is_repaired_anyway_if_that_is_said() {
    for (image, drive, blocks) in sound() {
        let folder = with(&image);
        let expected = repaired(&image, drive, &blocks);
        ends(&folder, "repair FOLDER/disk --anyway", 3);
        assert!(folder.read("disk.repaired") == expected);
        assert!(folder.read("disk") == image);
        ends(&folder, "repair FOLDER/disk --anyway --in-place", 3);
        assert!(folder.read("disk") == expected);
    }
}

#[test]
fn the_count_is_of_records_that_changed() {
    let mut image = repaired(&sample(), 3, &[6]);
    set_word(&mut image, 6, 4, 7);
    let (status, out, _) = said(&with(&image), "repair FOLDER/disk");
    let told = "the partition at block 6 is repaired, 1 record changed: 3 files, ";
    assert!(out.starts_with(told), "{out}");
    assert_eq!(status, 3);
    let report = object(&with(&image), "batch FOLDER");
    assert_eq!(report["images"][0]["partitions"][0]["records_changed"], 1);

    let folder = with(&disk());
    let (_, out, _) = said(&folder, "repair FOLDER/disk");
    let found = object(&folder, "repair FOLDER/disk --output FOLDER/other");
    for (i, s) in [90, 200].into_iter().enumerate() {
        let count = differing(&disk(), &repaired(&disk(), 0, &[s]));
        let told = format!("at block {s} is repaired, {count} records changed: ");
        assert!(out.contains(&told), "{out}");
        assert_eq!(found["partitions"][i]["records_changed"], count);
    }
    assert_eq!(found["partitions"][2]["records_changed"], 0);
}

#[test]
fn the_limit_cuts_the_repairs_of_all_partitions_together() {
    let stores = reference::plan_repair(&disk(), 0, 90).stores.len() as u32;
    for limit in [0, 1, 50, stores, stores + 1, stores + 50] {
        let mut expected = disk();
        let made = reference::repair(&mut expected, 0, 90, limit).made;
        reference::repair(&mut expected, 0, 200, limit - made);
        let folder = with(&disk());
        let (status, out, _) = said(&folder, &format!("repair FOLDER/disk --limit {limit}"));
        assert_eq!(status, 1, "{limit}: no image that is not sound is said to be repaired");
        assert!(folder.read("disk.repaired") == expected, "{limit}: {out}");
        let sound = reference::check(&expected, 0, 90).outcome == reference::DONE;
        assert_eq!(out.contains("at block 90 is repaired, "), sound, "{limit}: {out}");
        assert!(!out.contains("at block 200 is repaired"), "{limit}: {out}");
    }
}

#[test]
fn a_repair_that_was_cut_short_tells_how_far_it_went() {
    let folder = with(&unsound());
    let mut expected = unsound();
    reference::repair(&mut expected, 3, 6, 425);
    let count = differing(&unsound(), &expected);
    let (status, out, err) = said(&folder, "repair FOLDER/disk --limit 425");
    let line =
        "the partition at block 6 is not sound yet: the limit ended its repair after 425 stores";
    assert_eq!(err, format!("tapermoss: refused (5): {line}, {count} records changed\n"));
    assert_eq!((status, out.as_str()), (1, "written to FOLDER/disk.repaired\n"));
    assert!(folder.read("disk.repaired") == expected);
}
