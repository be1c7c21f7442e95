//! The commands that change an image: what they make of it, where they put it, and every refusal. The expected images are
//! those of the reference.

mod common;

use common::{
    differing, fails, fails_with, full, malformed, misused, printed, printed_with, sample,
    tapermoss, unsound, Folder, FLOPPY,
};
use reference::sample::{fresh, scattered};
use std::fs;
use std::os::unix::fs::{symlink, PermissionsExt};

const ALL: u32 = u32::MAX;

/// What the reference makes of the sample.
fn changed(change: impl FnOnce(&mut [u8]) -> reference::Answer) -> Vec<u8> {
    let mut image = sample();
    assert_eq!(change(&mut image).outcome, reference::DONE);
    image
}

/// A block that starts with these bytes.
fn padded(bytes: &[u8]) -> Vec<u8> {
    let mut block = bytes.to_vec();
    block.resize(512, 0);
    block
}

#[test]
fn create_makes_an_empty_file_in_a_new_image() {
    let folder = Folder::new();
    let image = folder.put("disk", &sample());
    let expected = changed(|image| reference::create(image, FLOPPY, 6, 3, ALL));
    let told = printed(&["create", &image, "--kind", "3"]);
    assert_eq!(told, format!("file 84 created: 3 stores\nwritten to {image}.new\n"));
    assert!(folder.read("disk.new") == expected);
    assert!(folder.read("disk") == sample());
    assert_eq!(folder.names(), ["disk", "disk.new"]);
}

#[test]
fn write_goes_block_by_block_and_fills_up_with_zeros() {
    let folder = Folder::new();
    let image = folder.put("disk", &sample());
    let bytes: Vec<u8> = (0..1_300_u32).map(|i| i as u8).collect();
    let from = folder.put("bytes", &bytes);
    let mut expected = sample();
    for (r, part) in (2..).zip(bytes.chunks(512)) {
        reference::write(&mut expected, FLOPPY, 6, 7, r, &padded(part), ALL);
    }
    let told = printed(&["write", &image, "--file", "7", "--from", &from, "--block", "2"]);
    assert_eq!(told, format!("file 7, 3 blocks written: 11 stores\nwritten to {image}.new\n"));
    assert!(folder.read("disk.new") == expected);
    let out = folder.text("out");
    let one = folder.put("one", b"x");
    let told = printed(&["write", &image, "--file", "8", "--from", &one, "--output", &out]);
    assert_eq!(told, format!("file 8, 1 block written: 4 stores\nwritten to {out}\n"));
    let expected = changed(|image| reference::write(image, FLOPPY, 6, 8, 0, &padded(b"x"), ALL));
    assert!(folder.read("out") == expected);
}

#[test]
fn the_limit_counts_the_stores_of_all_blocks_of_a_write() {
    let folder = Folder::new();
    let image = folder.put("disk", &sample());
    let from = folder.put("bytes", &[5; 1024]);
    let write = |limit: &str, out: &str| {
        let out = folder.text(out);
        printed(&[
            "write", &image, "--file", "8", "--from", &from, "--limit", limit, "--output", &out,
        ])
    };
    let mut expected = changed(|image| reference::write(image, FLOPPY, 6, 8, 0, &[5; 512], ALL));
    let told = write("4", "four");
    assert!(told.starts_with("file 8, as far as block 0: 4 stores, as many as the limit allows\n"));
    assert!(folder.read("four") == expected);
    reference::write(&mut expected, FLOPPY, 6, 8, 1, &[5; 512], 2);
    let told = write("6", "six");
    assert!(told.starts_with("file 8, as far as block 1: 6 stores, as many as the limit allows\n"));
    assert!(folder.read("six") == expected);
    write("0", "none");
    assert!(folder.read("none") == sample());
}

#[test]
fn describe_sets_a_name_and_keeps_the_rest() {
    let folder = Folder::new();
    let mut description: Vec<u8> = (0..104).collect();
    description[22..26].copy_from_slice(b"\x03old");
    let bytes = folder.put("description", &description);
    let image = folder.put("disk", &sample());
    let told = printed(&["describe", &image, "--file", "8", "--bytes", &bytes]);
    assert_eq!(told, format!("file 8 described: 1 store\nwritten to {image}.new\n"));
    let expected = changed(|image| reference::describe(image, FLOPPY, 6, 8, &description, ALL));
    assert!(folder.read("disk.new") == expected);

    printed(&["describe", &folder.text("disk.new"), "--file", "8", "--name", "a>b", "--in-place"]);
    description[22..].fill(0);
    description[22..26].copy_from_slice(b"\x03a>b");
    let expected = changed(|image| reference::describe(image, FLOPPY, 6, 8, &description, ALL));
    assert!(folder.read("disk.new") == expected);
    let text = printed(&["files", &folder.text("disk.new")]);
    assert!(text.contains("     8   57352      1       0       1  a>b\n"), "{text}");
}

#[test]
fn destroy_frees_the_blocks() {
    let folder = Folder::new();
    let image = folder.put("disk", &sample());
    let told = printed(&["destroy", &image, "--file", "9"]);
    assert_eq!(told, format!("file 9 destroyed: 5 stores\nwritten to {image}.new\n"));
    let expected = changed(|image| reference::destroy(image, FLOPPY, 6, 9, ALL));
    assert!(folder.read("disk.new") == expected);
}

#[test]
fn repair_makes_the_other_half_of_the_pair() {
    let folder = Folder::new();
    let image = folder.put("disk", &unsound());
    let mut expected = unsound();
    reference::repair(&mut expected, FLOPPY, 6, ALL);
    let changed = differing(&unsound(), &expected);
    let told = format!(
        "the partition at block 6 is repaired, {changed} records changed: 3 files, 77 blocks owned, 348 free
written to {image}.repaired
"
    );
    assert_eq!(printed_with(3, &["repair", &image]), told);
    assert!(folder.read("disk.repaired") == expected);
    assert!(folder.read("disk") == unsound());
    let out = folder.text("cut");
    let output = tapermoss(&["repair", &image, "--limit", "425", "--output", &out]);
    assert_eq!(output.status.code(), Some(1), "{output:?}");
    let mut expected = unsound();
    reference::repair(&mut expected, FLOPPY, 6, 425);
    assert!(folder.read("cut") == expected);
}

#[test]
fn a_fresh_image_is_sound_and_lists_its_partition() {
    let folder = Folder::new();
    let image = folder.text("disk");
    for (drive, first, last) in [(0, 90, 24_209), (1, 210, 32_976), (2, 72, 32_838), (3, 6, 431)] {
        printed(&["fresh", &image, "--drive", &drive.to_string(), "--force"]);
        let text = printed(&["partitions", &image]);
        let row = format!("{first:>6} {last:>6}  {:>6}  yes     SAMPLE\n", last - first + 1);
        assert!(text.ends_with(&row), "{text}");
        let free = last - first;
        let sound = format!(
            "the partition at block {first} is sound: 0 files, 0 blocks owned, {free} free\n"
        );
        assert_eq!(printed(&["check", &image]), sound);
    }
    let small = folder.text("small");
    let blocks = ["--blocks", "40", "--first", "3", "--last", "20", "--name", "TRIAL"];
    let told = printed(&[&["fresh", &small, "--drive", "0"], &blocks[..]].concat());
    assert_eq!(
        told,
        format!(
            "partition TRIAL at block 3: 0 files, 0 blocks owned, 17 free\nwritten to {small}\n"
        )
    );
    let made = folder.read("small");
    let mut expected = fresh(0, 40, 3, 20);
    reference::repair(&mut expected, 0, 3, ALL);
    expected[528 * 3 + 16 + 228..][..8].copy_from_slice(b"TRIAL   ");
    assert!(made[528..] == expected[528..]);
}

#[test]
fn nothing_that_is_there_is_overwritten_unless_force_is_said() {
    let folder = Folder::new();
    let image = folder.put("disk", &sample());
    folder.put("disk.new", b"precious");
    folder.put("disk.repaired", b"precious");
    let there = |ending| format!("{image}.{ending} is there already; --force replaces it");
    fails_with(6, &["create", &image], &there("new"));
    fails_with(6, &["destroy", &image, "--file", "7"], &there("new"));
    let other = "is not what repair makes of this image; both are kept, and --force replaces it";
    fails_with(
        6,
        &["repair", &image, "--anyway"],
        &format!("there is another file: {image}.repaired {other}"),
    );
    fails_with(
        6,
        &["fresh", &image, "--drive", "3"],
        &format!("{image} is there already; --force replaces it"),
    );
    symlink(folder.path("nowhere"), folder.path("link")).expect("a link");
    let link = folder.text("link");
    let taken = format!("{link} is there already; --force replaces it");
    fails_with(6, &["create", &image, "--output", &link], &taken);
    assert!(folder.read("disk") == sample());
    assert_eq!(folder.read("disk.new"), b"precious");
    assert_eq!(folder.read("disk.repaired"), b"precious");
    printed(&["create", &image, "--force"]);
    assert_eq!(folder.read("disk.new").len(), sample().len());
    assert_eq!(folder.names(), ["disk", "disk.new", "disk.repaired", "link"]);
}

#[test]
fn the_image_itself_is_only_replaced_in_place() {
    let folder = Folder::new();
    let image = folder.put("disk", &sample());
    symlink("disk", folder.path("link")).expect("a link");
    let link = folder.text("link");
    for output in [&image, &link] {
        for given in [&image, &link] {
            let told = misused(&["create", given, "--force", "--output", output]);
            assert_eq!(told, format!("tapermoss: {output} is the image itself\n"));
        }
    }
    misused(&["create", &image, "--in-place", "--output", &folder.text("other")]);
    assert!(folder.read("disk") == sample());

    let told = printed(&["create", &link, "--in-place"]);
    assert_eq!(told, format!("file 84 created: 3 stores\nwritten to {link}\n"));
    let expected = changed(|image| reference::create(image, FLOPPY, 6, 0, ALL));
    assert!(folder.read("disk") == expected);
    assert!(fs::symlink_metadata(folder.path("link")).expect("the link").is_symlink());
    assert_eq!(folder.names(), ["disk", "link"]);
}

#[test]
fn a_new_image_may_be_read_by_whom_the_old_one_may() {
    let folder = Folder::new();
    let image = folder.put("disk", &sample());
    fs::set_permissions(folder.path("disk"), fs::Permissions::from_mode(0o440))
        .expect("it is ours");
    printed(&["create", &image]);
    let mode = fs::metadata(folder.path("disk.new")).expect("the new image").permissions().mode();
    assert_eq!(mode & 0o777, 0o440);
}

#[test]
fn a_refused_command_writes_nothing() {
    let folder = Folder::new();
    let image = folder.put("disk", &sample());
    let big = folder.put("big", &vec![1; 512 * 400]);
    fails(
        &["write", &image, "--file", "7", "--from", &big],
        "refused (8): file 7 needs 400 blocks more, and the partition at block 6 has 348 free, of which one must stay",
    );
    let nowhere = folder.text("no/such/folder");
    fails_with(
        5,
        &["create", &image, "--output", &nowhere],
        &format!("cannot write {nowhere}: No such file or directory (os error 2)"),
    );
    assert!(folder.read("disk") == sample());
    assert_eq!(folder.names(), ["big", "disk"]);
}

#[test]
fn refusals_that_every_changing_command_has() {
    let folder = Folder::new();
    let image = folder.put("disk", &sample());
    let broken = folder.put("malformed", &malformed());
    let unsound = folder.put("unsound", &unsound());
    let ragged = folder.put("ragged", &[0; 530]);
    let short = folder.put("short", &[0; 90]);
    let one = "refused (1): the image's 530 bytes are no whole number of 528-byte records";
    let two = "refused (2): no good partition starts at block 5";
    let four = "refused (4): block 7 is a malformed file block";
    let five = "refused (5): the partition at block 6 is not sound; repair mends it";
    let six = "refused (6): block 10 is no file of the partition at block 6";
    let commands: [&[&str]; 4] = [
        &["create"],
        &["write", "--file", "10", "--from", &short],
        &["describe", "--file", "10", "--name", "x"],
        &["destroy", "--file", "10"],
    ];
    for command in commands {
        fails(&[command, &[&ragged]].concat(), one);
        fails(&[command, &[&image, "--partition", "5"]].concat(), two);
        fails(&[command, &[&broken]].concat(), four);
        fails(&[command, &[&unsound]].concat(), five);
        if command[0] != "create" {
            fails(&[command, &[&image]].concat(), six);
        }
    }
    fails(&["repair", &ragged], one);
    fails(&["repair", &image, "--partition", "5"], two);
    fails_with(4, &["repair", &broken], four);
    assert!(folder.names().iter().all(|name| !name.contains('.')), "{:?}", folder.names());
}

#[test]
fn refusals_that_only_some_changing_commands_have() {
    let folder = Folder::new();
    let image = folder.put("disk", &sample());
    let full = folder.put("full", &full());
    let tight = folder.put("tight", &scattered(FLOPPY, 432, 6, 11, &[3], 7));
    let short = folder.put("short", &[0; 90]);
    let eight = "refused (8): the partition at block 6 has too few free blocks";
    fails(
        &["describe", &image, "--file", "10", "--bytes", &short],
        "refused (3): a description has 104 bytes, not 90",
    );
    fails(
        &["write", &image, "--file", "7", "--from", &short, "--block", "4"],
        "refused (7): file 7 cannot take block 4: it is not there, and not the next one",
    );
    fails(&["create", &tight], eight);
    fails(
        &["write", &tight, "--file", "7", "--from", &short, "--block", "3"],
        "refused (8): file 7 needs 1 block more, and the partition at block 6 has 1 free, of which one must stay",
    );
    fails(
        &["repair", &full],
        "refused (9): the partition at block 6 has no free block, so there is no chain to repair",
    );
    assert!(folder.names().iter().all(|name| !name.contains('.')), "{:?}", folder.names());
}

#[test]
fn wrong_uses_of_the_changing_commands() {
    let folder = Folder::new();
    let image = folder.put("disk", &sample());
    let empty = folder.put("empty", b"");
    let new = folder.text("new");
    let uses: [&[&str]; 12] = [
        &["create", &image, "--kind", "65536"],
        &["write", &image, "--file", "7"],
        &["write", &image, "--from", &empty],
        &["write", &image, "--file", "7", "--from", &empty],
        &["describe", &image, "--file", "7"],
        &["describe", &image, "--file", "7", "--name", "Br\u{fc}cke"],
        &["describe", &image, "--file", "7", "--name", "x", "--bytes", &empty],
        &["destroy", &image],
        &["repair"],
        &["fresh", &new],
        &["fresh", &new, "--drive", "3", "--blocks", "433"],
        &["fresh", &new, "--drive", "3", "--first", "9", "--last", "9"],
    ];
    for arguments in uses {
        misused(arguments);
    }
    assert_eq!(folder.names(), ["disk", "empty"]);
}

#[test]
fn no_temporary_file_stays_where_the_new_image_cannot_get_its_name() {
    let folder = Folder::new();
    let image = folder.put("disk", &sample());
    fs::create_dir(folder.path("disk.new")).expect("a folder");
    let output = tapermoss(&["create", &image, "--force"]);
    assert_eq!(output.status.code(), Some(5), "{output:?}");
    assert_eq!(folder.names(), ["disk", "disk.new"]);
}
