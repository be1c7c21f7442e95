//! A batch over a folder that holds every kind of image: each outcome, the report in both forms, the exit status, and that
//! no file which was there has changed.

mod common;

use common::{
    differing, full, hex, malformed, printed, sample, set_bytes, set_word, tapermoss, unsound,
    Folder,
};
use reference::sample::scattered;
use serde_json::{json, Value};
use std::collections::BTreeMap;
use std::fs;
use std::os::unix::fs::{symlink, PermissionsExt};
use std::process::Output;

fn batch(folder: &Folder, more: &[&str]) -> Output {
    tapermoss(&[&["batch", folder.as_ref().to_str().expect("text")], more].concat())
}

/// A Shugart image with two partitions that its table lists: the first sound, the second as `second` leaves it.
fn two_partitions(second: impl Fn(&mut [u8])) -> Vec<u8> {
    let mut image = scattered(0, 24_210, 90, 190, &[2], 3);
    let other = scattered(0, 24_210, 200, 300, &[1, 1], 4);
    image[528 * 200..528 * 301].copy_from_slice(&other[528 * 200..528 * 301]);
    for (i, block) in [200, 90].into_iter().enumerate() {
        set_bytes(&mut image, 0, 122 + 2 * i, &reference::lbn_to_lda(0, block).a.to_le_bytes());
    }
    second(&mut image);
    image
}

/// A floppy with two partitions that no table lists.
fn unlisted() -> Vec<u8> {
    let mut image = sample();
    let inner = scattered(3, 432, 300, 310, &[], 1);
    image[528 * 300..528 * 311].copy_from_slice(&inner[528 * 300..528 * 311]);
    image
}

/// The same with a table that lists both.
fn overlapping() -> Vec<u8> {
    let mut image = unlisted();
    for (i, block) in [6, 300].into_iter().enumerate() {
        set_bytes(&mut image, 0, 122 + 2 * i, &reference::lbn_to_lda(3, block).a.to_le_bytes());
    }
    image
}

/// The same with a table that lists one of them: the other is then no partition, but something in a block.
fn listed_once() -> Vec<u8> {
    let mut image = overlapping();
    set_bytes(&mut image, 0, 124, &[0; 4]);
    set_word(&mut image, 6, 2, 0);
    image
}

/// A folder of all kinds.
fn all_kinds() -> Folder {
    let folder = Folder::new();
    folder.put("a-sound.img", &sample());
    folder.put("b-unsound.img", &unsound());
    folder.put("c-malformed.img", &malformed());
    folder.put("d-full.img", &full());
    folder.put("e-empty.img", b"");
    folder.put("f-letter.txt", b"This is no image.");
    folder.put("g-zeros.img", &[0; 528 * 432]);
    folder.put("h-odd.img", &[0; 528 * 40]);
    folder.put("i-two.img", &two_partitions(|image| set_word(image, 200, 4, 7)));
    folder.put("j-torn.img", &two_partitions(|image| set_word(image, 201, 249, 99)));
    folder.put("k-unlisted.img", &unlisted());
    folder.put("l-overlapping.img", &overlapping());
    folder.put("m-once.img", &listed_once());
    folder.put(".hidden", b"no image either");
    fs::create_dir(folder.path("n-folder")).expect("a folder");
    symlink("nowhere", folder.path("o-gone.img")).expect("a link");
    folder
}

const REPORT: &str = "\
image              outcome
a-sound.img        sound         3 files, 77 blocks owned, 348 free
b-unsound.img      repaired      b-unsound.img.repaired: 3 files, 77 blocks owned, 348 free
c-malformed.img    set aside     refused (4): block 7 is a malformed file block
d-full.img         refused       refused (9): the partition at block 6 has no free block, so there is no chain to repair
e-empty.img        refused       refused (1): the image is empty
f-letter.txt       refused       refused (1): the image's 17 bytes are no whole number of 528-byte records
g-zeros.img        refused       refused (2): no good partition starts at any block
h-odd.img          wrong use     the image has 40 blocks, as no drive has: name its drive with --drive; it has no file as any of the four
i-two.img          repaired      i-two.img.repaired: 2 partitions
  at block 90      sound         1 file, 3 blocks owned, 97 free
  at block 200     repaired      2 files, 4 blocks owned, 96 free
j-torn.img         set aside     2 partitions
  at block 90      sound         1 file, 3 blocks owned, 97 free
  at block 200     set aside     refused (4): block 201 is a malformed file block
k-unlisted.img     set aside     2 partitions
  at block 6       set aside     SHARED
  at block 300     set aside     SHARED
l-overlapping.img  set aside     2 partitions
  at block 6       set aside     SHARED
  at block 300     set aside     SHARED
m-once.img         repaired      m-once.img.repaired: 1 partition
  at block 6       repaired      3 files, 77 blocks owned, 348 free
  at block 300     not taken     it looks like a partition, but shares blocks with that at block 6, which the table lists
o-gone.img         unreadable    FOLDER: No such file or directory (os error 2)

1 sound, 3 repaired, 4 set aside, 0 another file, 4 refused, 1 wrong use, 1 unreadable
";

/// What is said of two partitions that share blocks.
const SHARED: &str = "the partitions at blocks 6 and 300 share blocks, and the table does not decide between them: --partition names one";

fn contents(folder: &Folder) -> BTreeMap<String, Vec<u8>> {
    let files = folder.names().into_iter().filter(|name| folder.path(name).is_file());
    files.map(|name| (name.clone(), folder.read(&name))).collect()
}

#[test]
fn every_kind_has_its_outcome_and_no_file_is_touched() {
    let folder = all_kinds();
    let before = contents(&folder);
    let output = batch(&folder, &[]);
    let gone = format!("cannot read {}", folder.text("o-gone.img"));
    let report = REPORT.replace("FOLDER", &gone).replace("SHARED", SHARED);
    assert_eq!(String::from_utf8_lossy(&output.stdout), report);
    assert_eq!(output.status.code(), Some(5), "a file that cannot be read is the worst");
    let mut after = contents(&folder);
    for name in ["b-unsound.img", "i-two.img", "m-once.img"] {
        let repaired = after.remove(&format!("{name}.repaired")).expect("a repaired image");
        assert_eq!(repaired.len(), before[name].len());
    }
    assert!(after == before);
}

#[test]
fn a_repaired_image_is_what_repair_makes() {
    let folder = all_kinds();
    batch(&folder, &[]);
    let mut expected = unsound();
    reference::repair(&mut expected, 3, 6, u32::MAX);
    assert!(folder.read("b-unsound.img.repaired") == expected);
    let mut expected = folder.read("i-two.img");
    reference::repair(&mut expected, 0, 200, u32::MAX);
    assert!(folder.read("i-two.img.repaired") == expected);
    let mut expected = listed_once();
    reference::repair(&mut expected, 3, 6, u32::MAX);
    assert!(folder.read("m-once.img.repaired") == expected);
}

#[test]
fn the_report_as_json_is_the_same_with_any_number_of_jobs() {
    let mut reports = ["1", "2", "16"].map(|jobs| {
        let folder = all_kinds();
        let output = batch(&folder, &["--json", "--jobs", jobs]);
        assert_eq!(output.status.code(), Some(5));
        let text = String::from_utf8(output.stdout).expect("text");
        let path = folder.as_ref().to_str().expect("text");
        text.replace(path, "FOLDER").replace(&hex(path.as_bytes()), "BYTES")
    });
    assert!(reports.iter().all(|report| *report == reports[0]));
    let report: Value = serde_json::from_str(&std::mem::take(&mut reports[0])).expect("JSON");
    let names =
        ["sound", "repaired", "set_aside", "another_file", "refused", "wrong_use", "unreadable"];
    assert_eq!(names.map(|name| report[name].clone()), [1, 3, 4, 0, 4, 1, 1].map(Value::from));
    assert_eq!((&report["outcome"], &report["number"]), (&json!("unreadable"), &Value::Null));
    assert_eq!(report["images"][1], unsound_as_json());
    let torn = &report["images"][9];
    let sentence = "refused (4): block 201 is a malformed file block";
    for object in [torn, &torn["partitions"][1]] {
        let fields = ["outcome", "number", "block", "sentence"].map(|name| object[name].clone());
        assert_eq!(fields, [json!("set aside"), json!(4), json!(201), json!(sentence)]);
    }
    assert_eq!(torn["partitions"][0]["outcome"], "sound");
}

/// The second image of the folder, in the report.
fn unsound_as_json() -> Value {
    let mut expected = unsound();
    reference::repair(&mut expected, 3, 6, u32::MAX);
    let records = differing(&unsound(), &expected);
    json!({
        "image": "b-unsound.img", "name_bytes": hex(b"b-unsound.img"), "drive": 3,
        "outcome": "repaired", "number": null, "block": null, "sentence": null,
        "repaired": "FOLDER/b-unsound.img.repaired", "repaired_bytes": format!("BYTES{}", hex(b"/b-unsound.img.repaired")), "earlier": false, "not_taken": [], "notes": [],
        "partitions": [{
            "first": 6, "last": 431, "listed": false, "shares_with": null, "outcome": "repaired",
            "number": null, "block": null, "sentence": null, "files": 3, "owned": 77, "free": 348,
            "records_changed": records,
        }],
    })
}

#[test]
fn a_second_run_finds_the_repaired_images_of_the_first() {
    let folder = Folder::new();
    folder.put("disk", &unsound());
    assert_eq!(batch(&folder, &[]).status.code(), Some(3));
    printed(&["map", &folder.text("disk")]);
    let repaired = folder.read("disk.repaired");
    let output = batch(&folder, &[]);
    let text = String::from_utf8(output.stdout).expect("text");
    let line = "disk   repaired      disk.repaired (there already): 3 files, ";
    assert!(text.contains(line), "{text}");
    assert!(folder.read("disk.repaired") == repaired);

    folder.put("disk.repaired", b"precious");
    assert_eq!(batch(&folder, &[]).status.code(), Some(6));
    assert_eq!(folder.read("disk.repaired"), b"precious");
    assert_eq!(batch(&folder, &["--force"]).status.code(), Some(3));
    assert!(folder.read("disk.repaired") == repaired);
}

#[test]
fn the_exit_status_is_that_of_the_worst() {
    let mut images = vec![("a", sample(), 0), ("b", unsound(), 3), ("c", malformed(), 4)];
    images.extend([("d", full(), 1), ("e", vec![0; 528 * 40], 2)]);
    let folder = Folder::new();
    assert_eq!(batch(&folder, &[]).status.code(), Some(0));
    for (name, image, status) in images {
        folder.put(name, &image);
        assert_eq!(batch(&folder, &[]).status.code(), Some(status), "{name}");
    }
    symlink("nowhere", folder.path("f")).expect("a link");
    assert_eq!(batch(&folder, &[]).status.code(), Some(5));
}

#[test]
fn a_drive_can_be_named_for_all() {
    let folder = Folder::new();
    folder.put("small", &scattered(0, 40, 1, 39, &[3, 0], 7));
    assert_eq!(batch(&folder, &[]).status.code(), Some(2));
    assert_eq!(batch(&folder, &["--drive", "0"]).status.code(), Some(0));
}

#[test]
fn a_folder_that_cannot_be_written_is_reported_image_by_image() {
    let folder = Folder::new();
    folder.put("a", &unsound());
    folder.put("b", &sample());
    // Whoever may write everywhere is not stopped by this; the run is then an ordinary one.
    fs::set_permissions(&folder, fs::Permissions::from_mode(0o555)).expect("it is ours");
    let output = batch(&folder, &[]);
    fs::set_permissions(&folder, fs::Permissions::from_mode(0o755)).expect("it is ours");
    let text = String::from_utf8(output.stdout).expect("text");
    assert!(text.contains("\nb      sound "), "{text}");
    assert!(matches!(output.status.code(), Some(3 | 5)), "{text}");
}

#[test]
fn a_batch_over_no_folder_is_status_5_or_2() {
    let folder = Folder::new();
    let image = folder.put("disk", &sample());
    common::fails_with(
        5,
        &["batch", &image],
        &format!("cannot read {image}: Not a directory (os error 20)"),
    );
    common::misused(&["batch"]);
    common::misused(&["batch", &image, "--jobs", "0"]);
}
