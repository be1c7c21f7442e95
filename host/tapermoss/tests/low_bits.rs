//! An image whose every LDA has reserved bits set, bits 0-7 of the low word: the tool says of it what it says of the same
//! image without them, and makes the same of it.

mod common;

use common::planted::{letters, S};
use common::{differing, object, said, set_bytes, set_word, with, Folder, FLOPPY};
use reference::file::{LAST_ADDRESS, LAST_NEGATIVE_ADDRESS};
use reference::image::{FREE_HEAD, FREE_TAIL, NUMBER_FREE, PARTITION_END, PARTITION_START};
use reference::lbn_to_lda;
use serde_json::json;
use trials::images::{Place, DATA_WORD};
use trials::low_bits::{spots, Spot, Twins, LOW};
use trials::settings::rng;

const PLACE: Place = Place { drive: FLOPPY, n: 432, s: S, e: 431 };

/// Where the device's table, at LBN 0, has its first partition.
const TABLE: usize = 122;

/// The letters and the drawing, in a partition that the table lists.
fn image() -> Vec<u8> {
    let mut image = letters().image;
    set_bytes(&mut image, 0, TABLE, &lbn_to_lda(FLOPPY, S).a.to_le_bytes());
    image
}

/// The image without reserved bits in any LDA, the table's too, and with some in each.
fn twins_of(image: Vec<u8>) -> Twins {
    let mut twins = Twins::of(image, &PLACE, &mut rng(90));
    let table = Spot { b: 0, at: DATA_WORD + TABLE };
    table.set_bits(&mut twins.laid, 0x55);
    twins.spots.push(table);
    assert!(twins.spots.iter().all(|spot| spot.get(&twins.laid) & LOW != 0));
    twins
}

/// Runs a command in both folders; it must say the same and end with the same status.
fn must_say_the_same(folders: &[Folder; 2], words: &str) -> (i32, String, String) {
    let [clean, laid] = folders.each_ref().map(|folder| said(folder, words));
    assert_eq!(clean, laid, "{words}");
    clean
}

fn folders(twins: &Twins) -> [Folder; 2] {
    [with(&twins.clean), with(&twins.laid)]
}

#[test]
fn it_is_looked_at_as_without_them() {
    let folders = folders(&twins_of(image()));
    for words in [
        "partitions FOLDER/disk",
        "partitions FOLDER/disk --json",
        "check FOLDER/disk",
        "check FOLDER/disk --json",
        "files FOLDER/disk",
        "files FOLDER/disk --json",
        "tree FOLDER/disk",
        "tree FOLDER/disk --json",
        "cat FOLDER/disk --path letters>FIRST.text",
        "cat FOLDER/disk --file 10",
        "show FOLDER/disk --path house.drawing --block 69",
        "show FOLDER/disk --file 10 --block 64 --json",
        "map FOLDER/disk",
        "repair FOLDER/disk",
        "batch FOLDER",
    ] {
        let (status, out, aside) = must_say_the_same(&folders, words);
        assert_eq!(status, 0, "{words}: {out}{aside}");
    }
    for picture in ["disk.svg", "disk.png"] {
        let [clean, laid] = folders.each_ref().map(|folder| folder.read(picture));
        assert!(clean == laid, "{picture}");
    }
    let [_, laid] = &folders;
    let (_, out, _) = said(laid, "partitions FOLDER/disk");
    assert!(out.contains("6 431 426 yes -"), "{out}");
    let (_, out, _) = said(laid, "tree FOLDER/disk");
    assert!(out.contains("8 letters>\n9 first.text\n"), "{out}");
}

#[test]
fn it_is_changed_as_without_them_and_keeps_them() {
    let twins = twins_of(image());
    let folders = folders(&twins);
    for folder in &folders {
        folder.put("more", &[b'm'; 700]);
    }
    for words in [
        "create FOLDER/disk --kind 3 --in-place",
        "write FOLDER/disk --path letters>first.text --block 3 --from FOLDER/more --in-place",
        "describe FOLDER/disk --path house.drawing --name roof --in-place",
        "write FOLDER/disk --file 10 --block 70 --from FOLDER/more --limit 3 --in-place",
        "repair FOLDER/disk --in-place",
        "destroy FOLDER/disk --path House.drawing --in-place",
        "tree FOLDER/disk",
        "check FOLDER/disk",
    ] {
        let (status, out, aside) = must_say_the_same(&folders, words);
        let expected = if words.starts_with("repair") { 3 } else { 0 };
        assert_eq!(status, expected, "{words}: {out}{aside}");
    }
    let [clean, laid] = folders.map(|folder| folder.read("disk"));
    twins.must_still_be(&clean, &laid);
    // File 9 has its blocks 0 to 2 by the addresses that it had, and the new ones by clean ones.
    let of = |word: usize| Spot { b: 9, at: DATA_WORD + word };
    for spot in [of(52), of(52 + 2 * 2), of(LAST_NEGATIVE_ADDRESS)] {
        assert_eq!(spot.get(&laid), spot.get(&twins.laid), "{spot:?} keeps its bits");
    }
    assert_eq!(
        [52 + 2 * 3, 52 + 2 * 4, LAST_ADDRESS].map(|word| of(word).get(&laid) & LOW),
        [0; 3]
    );
}

/// A field of the partition's own block.
fn of_the_partition(word: usize) -> Spot {
    Spot { b: S, at: DATA_WORD + word }
}

/// The same partition, repaired once and then with another NumberFree: of what repair looks at only that word is wrong.
fn miscounted() -> Twins {
    let mut image = image();
    reference::repair(&mut image, FLOPPY, S, u32::MAX);
    let mut twins = twins_of(image);
    for image in [&mut twins.clean, &mut twins.laid] {
        set_word(image, S, NUMBER_FREE, 1);
    }
    twins
}

#[test]
fn repair_counts_the_records_that_it_changes() {
    let twins = miscounted();
    let folders = folders(&twins);
    let (_, _, told) = must_say_the_same(&folders, "check FOLDER/disk");
    assert!(told.contains("refused (5)"), "{told}");
    let (status, out, _) = must_say_the_same(&folders, "repair FOLDER/disk");
    assert_eq!(status, 3);
    assert!(out.starts_with("the partition at block 6 is repaired, 1 record changed: "), "{out}");
    let [_, laid] = &folders;
    let repaired = laid.read("disk.repaired");
    assert_eq!(differing(&twins.laid, &repaired), 1);
    for spot in [FREE_HEAD, FREE_TAIL, PARTITION_START, PARTITION_END].map(of_the_partition) {
        assert_eq!(spot.get(&repaired), spot.get(&twins.laid), "{spot:?} keeps its bits");
    }
    let again = laid.text("disk.repaired");
    let found = object(&["repair", "--anyway", "--in-place", &again]);
    assert_eq!(found["partitions"][0]["records_changed"], json!(0));
    assert!(laid.read("disk.repaired") == repaired, "a second repair changes nothing");
}

#[test]
fn an_address_of_another_block_is_written_anew() {
    let mut image = miscounted().laid;
    let [head, tail] = [FREE_HEAD, FREE_TAIL].map(of_the_partition);
    let first = head.get(&image) & !LOW;
    set_bytes(&mut image, S, FREE_HEAD, &(first + 256 + 7).to_le_bytes());
    let folder = with(&image);
    let (status, out, _) = said(&folder, "repair FOLDER/disk");
    assert_eq!(status, 3, "{out}");
    let repaired = folder.read("disk.repaired");
    assert_eq!((head.get(&repaired), tail.get(&repaired)), (first, tail.get(&image)));
}

#[test]
fn a_pair_and_a_folder_of_such_images() {
    let twins = miscounted();
    let folders = folders(&twins);
    let (status, out, _) = must_say_the_same(&folders, "batch FOLDER");
    assert_eq!(status, 3, "{out}");
    for words in [
        "show --original FOLDER/disk --repaired FOLDER/disk.repaired --file 10 --block 69",
        "show --original FOLDER/disk --repaired FOLDER/disk.repaired --path letters>first.text --block 2",
    ] {
        let (status, out, _) = must_say_the_same(&folders, words);
        assert_eq!(status, 0, "{words}");
        assert!(out.starts_with("the repaired image answered: "), "{out}");
    }
}

#[test]
fn what_the_tool_writes_has_none() {
    let folder = Folder::new();
    folder.put("text", &[1; 512 * 70]);
    for words in [
        "fresh FOLDER/disk --drive floppy",
        "create FOLDER/disk --in-place",
        "write FOLDER/disk --file 7 --from FOLDER/text --in-place",
    ] {
        let (status, out, aside) = said(&folder, words);
        assert_eq!(status, 0, "{words}: {out}{aside}");
    }
    let image = folder.read("disk");
    let found = spots(&image, &PLACE);
    assert!(found.len() > 70 && found.iter().all(|spot| spot.get(&image) & LOW == 0));
}
