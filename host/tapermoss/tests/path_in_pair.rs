//! `--path` from a pair of an original and a repaired image: which of them looks it up, and has the block.

mod common;

use common::planted::{chain, letters, S};
use common::{fails, tapermoss, told, Folder, FLOPPY};
use reference::tree_sample::set_root;

const ALL: u32 = u32::MAX;

/// What is done to an image.
type Change<'a> = &'a dyn Fn(&mut Vec<u8>);

/// A folder with the letters for an original, and an image that was made of them for the repaired one.
fn pair(change: impl Fn(&mut Vec<u8>)) -> (Folder, [String; 5]) {
    let folder = Folder::new();
    let original = folder.put("disk", &letters().image);
    let mut repaired = letters().image;
    change(&mut repaired);
    let repaired = folder.put("disk.repaired", &repaired);
    let words = ["show", "--original", &original, "--repaired", &repaired].map(str::to_string);
    (folder, words)
}

/// What `show` of a pair is asked and answers: the exit status, the first line of its output, and standard error.
fn shown(words: &[String; 5], path: &str, block: &str) -> (Option<i32>, String, String) {
    let words: Vec<&str> = words.iter().map(String::as_str).collect();
    let output = tapermoss(&[&words[..], &["--path", path, "--block", block]].concat());
    let text = String::from_utf8(output.stdout.clone()).expect("text");
    (output.status.code(), text.lines().next().unwrap_or_default().to_string(), told(&output))
}

/// The block at which block r of file f stands in the letters.
fn at(f: u32, r: u32) -> u32 {
    reference::show(&letters().image, FLOPPY, S, f, r).a / 528
}

#[test]
fn from_a_pair_the_repaired_image_looks_a_path_up_unless_it_refuses() {
    let first = "letters>first.text";
    let (_folder, words) = pair(|_| {});
    let line = format!("the repaired image answered: block 1 of file 9 is block {}", at(9, 1));
    assert_eq!(shown(&words, first, "1"), (Some(0), line, String::new()));
    let line = "the repaired image answered: file 9 has no block 3: it ends before".to_string();
    assert_eq!(shown(&words, first, "3"), (Some(7), line, String::new()));
    let told = "tapermoss: the repaired image answered: the path 'none' is not there: the root directory (block 7) has no entry 'none'\n";
    assert_eq!(shown(&words, "none", "0"), (Some(7), String::new(), told.to_string()));
    let told = "tapermoss: the original image answered: the path 'letters>Old' is a dangling entry: it holds nil\n";
    assert_eq!(shown(&words, "letters>Old", "0"), (Some(7), String::new(), told.to_string()));
    let told = "tapermoss: refused (7): block 32767 is beyond what file 9 can have\n";
    assert_eq!(shown(&words, first, "32767"), (Some(1), String::new(), told.to_string()));
}

#[test]
fn where_the_repaired_image_has_no_file_at_a_path_the_original_answers() {
    let line = format!("the original image answered: block 1 of file 9 is block {}", at(9, 1));
    let changes: [Change; 5] = [
        // Destroyed: the entry dangles, at the end of the path and in its middle.
        &|image| _ = reference::destroy(image, FLOPPY, S, 9, ALL),
        &|image| _ = reference::destroy(image, FLOPPY, S, 8, ALL),
        // The root is none.
        &|image| set_root(image, S, 0),
        &|image| image.clear(),
        &|image| image.truncate(1_000),
    ];
    for change in changes {
        let (_folder, words) = pair(change);
        let answer = shown(&words, "letters>first.text", "1");
        assert_eq!(answer, (Some(0), line.clone(), String::new()));
    }
}

#[test]
fn path_and_block_are_of_one_image() {
    // In the repaired image the entry `letters` is not there any more, and file 9 is another one.
    let (_folder, words) = pair(|image| {
        reference::write(image, FLOPPY, S, 7, 0, &[0; 512], ALL);
        reference::write(image, FLOPPY, S, 9, 0, &[b'N'; 512], ALL);
    });
    let (status, _, told) = shown(&words, "letters>first.text", "0");
    assert_eq!(status, Some(7));
    assert_eq!(told, "tapermoss: the repaired image answered: the path 'letters>first.text' is not there: the root directory (block 7) has no entry 'letters'\n");
    // Its root is none: the path is the original's, and so is the block, though the repaired image has a file 9 too.
    let (folder, words) = pair(|image| {
        set_root(image, S, 0);
        reference::write(image, FLOPPY, S, 9, 0, &[b'N'; 512], ALL);
    });
    let words: Vec<&str> = words.iter().map(String::as_str).collect();
    let line = [&words[..], &["--path", "letters>first.text", "--block", "0", "--raw"]].concat();
    assert!(tapermoss(&line).stdout == [b'T'; 512]);
    let line = [&words[..], &["--file", "9", "--block", "0", "--raw"]].concat();
    assert!(tapermoss(&line).stdout == [b'N'; 512]);
    drop(folder);
}

#[test]
fn where_both_images_of_a_pair_refuse_a_path_the_sentence_is_the_original_s() {
    let folder = Folder::new();
    let mut rootless = letters().image;
    set_root(&mut rootless, S, 0);
    let [rootless, empty, ten] =
        [("rootless", rootless), ("empty", Vec::new()), ("ten", chain(10).image)]
            .map(|(name, bytes)| folder.put(name, &bytes));
    let show = |original, repaired, path| {
        ["show", "--original", original, "--repaired", repaired, "--path", path, "--block", "0"]
    };
    let no_root =
        "refused (6): the partition at block 6 has no root directory: its RootDirectoryID is nil";
    fails(&show(&rootless, &empty, "x"), no_root);
    fails(&show(&empty, &rootless, "x"), "refused (1): the image is empty");
    let (nine, deeper) = (["D"; 9].join(">"), ["D"; 10].join(">"));
    fails(&show(&rootless, &ten, &deeper), no_root);
    let text = tapermoss(&show(&empty, &ten, &nine));
    assert_eq!(text.status.code(), Some(7), "file 16 has no block: {text:?}");
    assert!(text.stdout.starts_with(b"the repaired image answered: file 16 has no block 0"));
}
