//! The picture as SVG: a rectangle for each run of like blocks in a line, thin gaps over them, and a legend below.

use super::{Block, Colour, Picture};
use std::fmt::Write;

/// The side of a block, and the room around the picture.
const SIDE: usize = 8;
const MARGIN: usize = 16;

pub fn draw(picture: &Picture) -> String {
    let legend = legend();
    let width = (SIDE * picture.width).max(320) + 2 * MARGIN;
    let below = 2 * MARGIN + SIDE * picture.lines();
    let height = below + 20 * legend.len() + MARGIN;
    let mut text = format!(
        "<svg xmlns=\"http://www.w3.org/2000/svg\" width=\"{width}\" height=\"{height}\" \
         font-family=\"sans-serif\" font-size=\"13\">\n\
         <rect width=\"{width}\" height=\"{height}\" fill=\"#ffffff\"/>\n"
    );
    for (line, blocks) in picture.blocks.chunks(picture.width).enumerate() {
        draw_line(&mut text, picture, line, blocks);
    }
    text += &gaps(picture);
    for (i, (colour, words)) in legend.iter().enumerate() {
        let y = below + 20 * i;
        let colour = hex(*colour);
        let (x, baseline) = (MARGIN + 20, y + 11);
        writeln!(
            text,
            "<rect x=\"{MARGIN}\" y=\"{y}\" width=\"12\" height=\"12\" fill=\"{colour}\"/>\
             <text x=\"{x}\" y=\"{baseline}\">{words}</text>"
        )
        .expect("a text takes all");
    }
    text + "</svg>\n"
}

/// White lines between the blocks, through which titles can still be seen.
fn gaps(picture: &Picture) -> String {
    let (width, height) = (SIDE * picture.width, SIDE * picture.lines());
    format!(
        "<pattern id=\"gaps\" x=\"{MARGIN}\" y=\"{MARGIN}\" width=\"{SIDE}\" height=\"{SIDE}\" \
         patternUnits=\"userSpaceOnUse\"><path d=\"M7.5 0V7.5H0\" fill=\"none\" stroke=\"#ffffff\"/></pattern>\n\
         <rect x=\"{MARGIN}\" y=\"{MARGIN}\" width=\"{width}\" height=\"{height}\" fill=\"url(#gaps)\" \
         pointer-events=\"none\"/>\n"
    )
}

/// The runs of one line. A run has its blocks' numbers as its title.
fn draw_line(text: &mut String, picture: &Picture, line: usize, blocks: &[Block]) {
    let mut from = 0;
    for run in blocks.chunk_by(|one, next| one == next) {
        let first = picture.s as usize + line * picture.width + from;
        let (x, y) = (MARGIN + SIDE * from, MARGIN + SIDE * line);
        let (width, height) = (SIDE * run.len(), SIDE);
        let numbers = match run.len() {
            1 => format!("block {first}"),
            more => format!("blocks {first} to {}", first + more - 1),
        };
        writeln!(
            text,
            "<rect x=\"{x}\" y=\"{y}\" width=\"{width}\" height=\"{height}\" fill=\"{}\">\
             <title>{numbers}: {}</title></rect>",
            hex(run[0].colour()),
            run[0].told()
        )
        .expect("a text takes all");
        from += run.len();
    }
}

fn hex([red, green, blue]: Colour) -> String {
    format!("#{red:02x}{green:02x}{blue:02x}")
}

/// The colours and what they say; for the files' colours the first stands.
fn legend() -> [(Colour, &'static str); 6] {
    let (place, f) = (0, 0);
    [
        (Block::Partition, "the partition's own block"),
        (Block::Free, "owned by no file"),
        (Block::File { place, f }, "a file's own block; each file has a dark colour"),
        (Block::Data { place, f }, "its data; each file has a colour"),
        (Block::Pointer { place, f }, "a pointer block"),
        (Block::Malformed, "a malformed file block"),
    ]
    .map(|(block, words)| (block.colour(), words))
}
