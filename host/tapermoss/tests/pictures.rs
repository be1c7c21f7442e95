//! The pictures: every block in its colour in both forms, and the files are what their names say.

mod common;

use common::{fails, fails_with, malformed, misused, printed, sample, Folder};
use miniz_oxide::inflate::decompress_to_vec_zlib;
use std::fs;

const BLACK: [u8; 3] = [0, 0, 0];
const GREY: [u8; 3] = [228, 228, 228];
const RED: [u8; 3] = [208, 0, 0];
const VIOLET: [u8; 3] = [106, 61, 154];
const BLUE: [u8; 3] = [0, 114, 178];
const DARK_BLUE: [u8; 3] = [0, 57, 89];
const GREEN: [u8; 3] = [0, 158, 115];
const DARK_GREEN: [u8; 3] = [0, 79, 57];

/// A PNG that was read again: its dots, row by row.
struct Dots {
    width: usize,
    colours: Vec<[u8; 3]>,
}

/// The chunks of a PNG, their sums held to their bytes.
fn chunks(mut bytes: &[u8]) -> Vec<([u8; 4], Vec<u8>)> {
    assert_eq!(bytes[..8], *b"\x89PNG\r\n\x1a\n");
    bytes = &bytes[8..];
    let number = |at: &[u8]| u32::from_be_bytes(at[..4].try_into().expect("four bytes"));
    let mut found = Vec::new();
    while !bytes.is_empty() {
        let length = number(bytes) as usize;
        let (name, content) = (&bytes[4..8], &bytes[8..8 + length]);
        assert_eq!(number(&bytes[8 + length..]), crc32fast::hash(&bytes[4..8 + length]));
        found.push((name.try_into().expect("four bytes"), content.to_vec()));
        bytes = &bytes[12 + length..];
    }
    found
}

fn dots(bytes: &[u8]) -> Dots {
    let chunks = chunks(bytes);
    let names: Vec<&[u8; 4]> = chunks.iter().map(|(name, _)| name).collect();
    assert_eq!(names, [b"IHDR", b"PLTE", b"IDAT", b"IEND"]);
    let [header, palette, data] = [0, 1, 2].map(|i| &chunks[i].1);
    assert_eq!(header[8..], [8, 3, 0, 0, 0]);
    let width = u32::from_be_bytes(header[..4].try_into().expect("four bytes")) as usize;
    let height = u32::from_be_bytes(header[4..8].try_into().expect("four bytes")) as usize;
    let raw = decompress_to_vec_zlib(data).expect("compressed bytes");
    assert_eq!(raw.len(), (width + 1) * height);
    let rows = raw.chunks(width + 1).inspect(|row| assert_eq!(row[0], 0));
    let colour = |&dot: &u8| palette[3 * usize::from(dot)..][..3].try_into().expect("a colour");
    let colours = rows.flat_map(|row| row[1..].iter().map(colour)).collect();
    Dots { width, colours }
}

impl Dots {
    /// The colour of block b of a partition that starts at 6: blocks have a side of 6 dots.
    fn block(&self, b: usize) -> [u8; 3] {
        let (line, column) = ((b - 6) / (self.width / 6), (b - 6) % (self.width / 6));
        self.colours[(6 * line + 2) * self.width + 6 * column + 2]
    }
}

#[test]
fn every_block_has_its_colour() {
    let folder = Folder::new();
    let image = sample();
    let path = folder.put("disk", &image);
    let told = printed(&["map", &path]);
    assert_eq!(
        told,
        format!(
            "files 3, data blocks 73, pointer blocks 1, malformed file blocks 0, owned by no file 348
written to {path}.svg
written to {path}.png
"
        )
    );
    let picture = dots(&folder.read("disk.png"));
    assert_eq!((picture.block(6), picture.block(431)), (BLACK, GREY));
    assert_eq!((picture.block(7), picture.block(9)), (DARK_BLUE, DARK_GREEN));
    for (f, blocks, colour) in [(7, 3, BLUE), (9, 70, GREEN)] {
        for r in 0..blocks {
            let b = reference::show(&image, 3, 6, f, r).a as usize / 528;
            assert_eq!(picture.block(b), colour, "block {b}");
        }
    }
    let count = |colour| (6..=431).filter(|&b| picture.block(b) == colour).count();
    assert_eq!((count(VIOLET), count(GREY), count(RED)), (1, 348, 0));
}

#[test]
fn the_svg_tells_what_each_block_is() {
    let folder = Folder::new();
    let path = folder.put("disk", &malformed());
    let out = folder.text("picture.svg");
    printed(&["map", &path, "--output", &out]);
    let text = fs::read_to_string(folder.path("picture.svg")).expect("text");
    assert!(text.starts_with("<svg ") && text.ends_with("</svg>\n"));
    for title in [
        "fill=\"#000000\"><title>block 6: the partition's own block</title>",
        "fill=\"#d00000\"><title>block 7: a malformed file block</title>",
        "<title>block 8: file 8</title>",
        ": a pointer block of file 9</title>",
        ": data of file 9</title>",
        ": owned by no file</title>",
    ] {
        assert!(text.contains(title), "{title} in {text}");
    }
    assert_eq!(folder.names(), ["disk", "picture.svg"]);
}

#[test]
fn a_picture_overwrites_nothing() {
    let folder = Folder::new();
    let path = folder.put("disk.png", &sample());
    let taken = folder.put("disk.png.png", b"precious");
    fails_with(6, &["map", &path], &format!("{taken} is there already; --force replaces it"));
    let told = misused(&["map", &path, "--force", "--output", &path]);
    assert_eq!(told, format!("tapermoss: {path} is the image itself\n"));
    assert_eq!(folder.names(), ["disk.png", "disk.png.png"]);
    assert!(folder.read("disk.png") == sample());
    fails(
        &["map", &path, "--force", "--partition", "9"],
        "refused (2): no good partition starts at block 9",
    );
    printed(&["map", &path, "--force"]);
    assert_eq!(folder.names(), ["disk.png", "disk.png.png", "disk.png.svg"]);
}
