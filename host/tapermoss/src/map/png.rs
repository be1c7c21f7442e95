//! The picture as PNG, written chunk by chunk: a palette of the colours that occur, one byte a dot, compressed by
//! miniz_oxide.

use super::{Colour, Picture};
use miniz_oxide::deflate::compress_to_vec_zlib;

/// The side of a block in dots; the last one of them is a gap.
const SIDE: usize = 6;
const GAP: Colour = [255, 255, 255];
const SIGNATURE: [u8; 8] = *b"\x89PNG\r\n\x1a\n";

pub fn draw(picture: &Picture) -> Vec<u8> {
    let mut palette = vec![GAP];
    let mut index = |colour: Colour| {
        let known = palette.iter().position(|&one| one == colour);
        known.unwrap_or_else(|| {
            palette.push(colour);
            palette.len() - 1
        }) as u8
    };
    let colours: Vec<u8> = picture.blocks.iter().map(|block| index(block.colour())).collect();
    let (width, height) = (SIDE * picture.width, SIDE * picture.lines());
    let mut dots = Vec::with_capacity((width + 1) * height);
    for line in colours.chunks(picture.width) {
        let row = row(line, width);
        (1..SIDE).for_each(|_| dots.extend_from_slice(&row));
        dots.extend(std::iter::repeat_n(0, width + 1));
    }
    file(width as u32, height as u32, &palette, &dots)
}

/// A row of dots: the filter's number, which is 0 for none, then each block and its gap.
fn row(line: &[u8], width: usize) -> Vec<u8> {
    let mut row = vec![0; width + 1];
    for (i, &colour) in line.iter().enumerate() {
        row[1 + SIDE * i..][..SIDE - 1].fill(colour);
    }
    row
}

fn file(width: u32, height: u32, palette: &[Colour], dots: &[u8]) -> Vec<u8> {
    // 8 bits a dot, colours from the palette, and no choice in the other three.
    let header = [&width.to_be_bytes()[..], &height.to_be_bytes(), &[8, 3, 0, 0, 0]].concat();
    let mut bytes = SIGNATURE.to_vec();
    chunk(&mut bytes, b"IHDR", &header);
    chunk(&mut bytes, b"PLTE", &palette.concat());
    chunk(&mut bytes, b"IDAT", &compress_to_vec_zlib(dots, 9));
    chunk(&mut bytes, b"IEND", &[]);
    bytes
}

/// A chunk: length, name, content, and the sum over name and content.
fn chunk(bytes: &mut Vec<u8>, name: &[u8; 4], content: &[u8]) {
    bytes.extend((content.len() as u32).to_be_bytes());
    let from = bytes.len();
    bytes.extend(name);
    bytes.extend(content);
    let sum = crc32fast::hash(&bytes[from..]);
    bytes.extend(sum.to_be_bytes());
}
