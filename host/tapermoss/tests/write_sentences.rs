//! What a write cannot take is said before the first block is written, and what is said is true.

mod common;

use common::{fails, printed, sample, Folder, FLOPPY};
use reference::sample::scattered;

const ALL: u32 = u32::MAX;

/// Files 91 of 4,160 blocks and 92 of three, and 19,922 free blocks; `one` byte, `three` blocks, as many blocks as file 92
/// could still take, and one more.
fn with_a_long_file() -> (Folder, [String; 5]) {
    let folder = Folder::new();
    let image = scattered(0, 24_210, 90, 24_209, &[4_160, 3], 5);
    let paths = [
        ("disk", image),
        ("one", b"x".to_vec()),
        ("three", vec![1; 1_500]),
        ("most", vec![2; 512 * 32_764]),
        ("more", vec![3; 512 * 32_764 + 1]),
    ]
    .map(|(name, bytes)| folder.put(name, &bytes));
    (folder, paths)
}

#[test]
fn a_write_past_the_last_possible_block_says_so() {
    let (folder, [image, one, three, most, more]) = with_a_long_file();
    let write = |file: u32, block: u32, from: &str| {
        let (file, block) = (file.to_string(), block.to_string());
        ["write", &image, "--file", &file, "--block", &block, "--from", from].map(str::to_string)
    };
    let beyond = |file, block: u32| {
        format!(
            "refused (7): file {file} cannot take block {block}: the last that a file can have is 32766"
        )
    };
    let next = |file, block| {
        format!("refused (7): file {file} cannot take block {block}: it is not there, and not the next one")
    };
    // 32,767 blocks need 256 pointer blocks, -2 and -3; the file has three of the blocks.
    let full = "refused (8): file 92 needs 33022 blocks more, and the partition at block 90 has 19922 free, of which one must stay";
    let cases = [
        (write(91, 4_161, &one), next(91, 4_161)),
        (write(91, 32_766, &three), next(91, 32_766)),
        (write(91, 32_767, &one), beyond(91, 32_767)),
        (write(92, 4, &one), next(92, 4)),
        (write(92, 4_160, &one), next(92, 4_160)),
        (write(92, 3, &most), full.to_string()),
        (write(92, 3, &more), beyond(92, 32_767)),
        (write(92, u32::MAX, &three), beyond(92, u32::MAX)),
    ];
    for (arguments, sentence) in cases {
        let arguments: Vec<&str> = arguments.iter().map(String::as_str).collect();
        fails(&arguments, &sentence);
    }
    assert_eq!(folder.names(), ["disk", "more", "most", "one", "three"]);
    // One block is replaced; 4,160 brings a pointer block and -2, nine stores, and 4,161 nothing, six.
    let told = printed(&["write", &image, "--file", "91", "--block", "4159", "--from", &three]);
    assert_eq!(told, format!("file 91, 3 blocks written: 16 stores\nwritten to {image}.new\n"));
}

/// The sample with as many blocks in file 8 as the reference can write, and how many these are.
fn filled(byte: u8) -> (Vec<u8>, usize) {
    let mut image = sample();
    let blocks = (0..).find(|&r| {
        let answer = reference::write(&mut image, FLOPPY, 6, 8, r, &[byte; 512], ALL);
        assert!(answer.outcome == reference::DONE || answer.number == 8);
        answer.outcome == reference::REFUSED
    });
    (image, blocks.expect("it is full at last") as usize)
}

#[test]
fn what_would_not_fit_is_refused_before_the_first_block() {
    let folder = Folder::new();
    let (expected, blocks) = filled(5);
    let image = folder.put("disk", &sample());
    let fits = folder.put("fits", &vec![5; 512 * blocks]);
    let large = folder.put("large", &vec![5; 512 * blocks + 1]);
    let limits: [&[&str]; 4] = [&[], &["--limit", "0"], &["--limit", "4"], &["--limit", "400"]];
    for limit in limits {
        let write = [&["write", &image, "--file", "8", "--from", &large], limit].concat();
        fails(
            &write,
            "refused (8): file 8 needs 348 blocks more, and the partition at block 6 has 348 free, of which one must stay",
        );
    }
    assert_eq!(folder.names(), ["disk", "fits", "large"]);
    printed(&["write", &image, "--file", "8", "--from", &fits]);
    assert!(folder.read("disk.new") == expected);
}
