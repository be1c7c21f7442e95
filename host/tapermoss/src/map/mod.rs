//! `tapermoss map`: a picture of a partition, a square for each block, as SVG or PNG.

mod png;
mod svg;

use crate::image::{PartitionArguments, Reading};
use crate::index::Index;
use crate::keep::{self, Existing, Like};
use crate::names::{name_bytes, shown};
use crate::problem::Problem;
use crate::told::Told;
use crate::volume;
use clap::Args;
use perq::{Drive, Refusal};
use serde_json::{json, Value};
use std::path::{Path, PathBuf};

pub const EXAMPLES: &str = "\
The picture is read in lines, from the partition's first block (black) on. Each file has a colour, its own block a darker
one; pointer blocks are violet, malformed file blocks red, and blocks that no file owns light grey: in a partition without
malformed file blocks these are the free ones. In the SVG a block tells its number.

Examples:
  tapermoss map disk.img
  tapermoss map disk.img --output disk.svg --output disk.png";

#[derive(Args)]
pub struct Arguments {
    #[command(flatten)]
    place: PartitionArguments,
    /// Where the picture goes: a name that ends in .svg or .png [default: IMAGE.svg and IMAGE.png]
    #[arg(long, value_name = "PATH")]
    output: Vec<PathBuf>,
    /// Replace a file that has the picture's name already
    #[arg(long)]
    force: bool,
}

/// What a block is. A file is known by its place among the files and by its own block.
#[derive(Clone, Copy, Debug, PartialEq, Eq)]
pub enum Block {
    Partition,
    Free,
    Malformed,
    File { place: usize, f: u32 },
    Pointer { place: usize, f: u32 },
    Data { place: usize, f: u32 },
}

pub type Colour = [u8; 3];

/// The colours of files, which can be told apart with any kind of sight.
const FILES: [Colour; 6] =
    [[0, 114, 178], [230, 159, 0], [0, 158, 115], [86, 180, 233], [204, 121, 167], [240, 228, 66]];

impl Block {
    pub fn colour(self) -> Colour {
        match self {
            Block::Partition => [0, 0, 0],
            Block::Free => [228, 228, 228],
            Block::Malformed => [208, 0, 0],
            Block::Pointer { .. } => [106, 61, 154],
            Block::Data { place, .. } => FILES[place % FILES.len()],
            Block::File { place, .. } => FILES[place % FILES.len()].map(|part| part / 2),
        }
    }

    pub fn told(self) -> String {
        match self {
            Block::Partition => "the partition's own block".to_string(),
            Block::Free => "owned by no file".to_string(),
            Block::Malformed => "a malformed file block".to_string(),
            Block::File { f, .. } => format!("file {f}"),
            Block::Pointer { f, .. } => format!("a pointer block of file {f}"),
            Block::Data { f, .. } => format!("data of file {f}"),
        }
    }
}

/// The blocks of a partition in lines of one width.
pub struct Picture {
    pub s: u32,
    pub blocks: Vec<Block>,
    pub width: usize,
}

impl Picture {
    pub fn lines(&self) -> usize {
        self.blocks.len().div_ceil(self.width)
    }
}

/// What every block of a partition is.
fn picture(image: &[u8], drive: Drive, s: u32) -> Result<Picture, Refusal> {
    let survey = volume::survey(image, drive, s)?;
    let mut blocks = vec![Block::Free; (survey.last - s + 1) as usize];
    blocks[0] = Block::Partition;
    let mut set = |block: u32, what: Block| blocks[(block - s) as usize] = what;
    survey.malformed.iter().for_each(|&block| set(block, Block::Malformed));
    for (place, &f) in survey.files.iter().enumerate() {
        set(f, Block::File { place, f });
        let index = Index::of(image, drive, f);
        index.pointers.iter().for_each(|&block| set(block, Block::Pointer { place, f }));
        index.data.iter().for_each(|&block| set(block, Block::Data { place, f }));
    }
    // About twice as wide as high.
    let width = ((2 * blocks.len()) as f64).sqrt().ceil() as usize;
    Ok(Picture { s, blocks, width: width.next_multiple_of(8) })
}

/// How many blocks there are of each sort.
fn counts(picture: &Picture) -> [(&'static str, usize); 5] {
    let count = |is: fn(&Block) -> bool| picture.blocks.iter().filter(|block| is(block)).count();
    [
        ("files", count(|block| matches!(block, Block::File { .. }))),
        ("data blocks", count(|block| matches!(block, Block::Data { .. }))),
        ("pointer blocks", count(|block| matches!(block, Block::Pointer { .. }))),
        ("malformed file blocks", count(|block| matches!(block, Block::Malformed))),
        ("owned by no file", count(|block| matches!(block, Block::Free))),
    ]
}

/// The picture in the form that the name's ending asks for.
fn drawn(path: &Path, picture: &Picture) -> Result<Vec<u8>, Problem> {
    match path.extension().and_then(|ending| ending.to_str()) {
        Some("svg") => Ok(svg::draw(picture).into_bytes()),
        Some("png") => Ok(png::draw(picture)),
        _ => Err(Problem::usage(format!("{} ends in neither .svg nor .png", shown(path)))),
    }
}

pub fn run(arguments: &Arguments) -> Result<Told, Problem> {
    let image_path = &arguments.place.image.image;
    let mut paths = arguments.output.clone();
    if paths.is_empty() {
        paths = [".svg", ".png"].map(|ending| keep::beside(image_path, ending)).to_vec();
    }
    let existing = Existing::under(arguments.force);
    paths.iter().try_for_each(|path| keep::must_be_free(path, existing, image_path))?;
    let image = Reading::open(&arguments.place)?;
    let picture = picture(&image.bytes, image.drive, image.s)
        .map_err(|refusal| image.asked().refused(refusal))?;
    let drawings = paths.iter().map(|path| drawn(path, &picture)).collect::<Result<Vec<_>, _>>()?;
    let mut notes = Vec::new();
    for (path, drawing) in paths.iter().zip(drawings) {
        notes.extend(keep::put(path, &drawing, Like::New, existing)?);
    }
    Ok(Told { aside: notes, ..told(&picture, &paths) })
}

fn told(picture: &Picture, paths: &[PathBuf]) -> Told {
    let counts = counts(picture);
    let summary: Vec<String> =
        counts.iter().map(|(name, count)| format!("{name} {count}")).collect();
    let written: Vec<String> = paths.iter().map(|path| shown(path)).collect();
    let lines = written.iter().map(|path| format!("written to {path}\n"));
    let text = format!("{}\n{}", summary.join(", "), lines.collect::<String>());
    let bytes: Vec<String> = paths.iter().map(|path| name_bytes(path)).collect();
    let mut fields = json!({"partition": picture.s, "written": written, "written_bytes": bytes});
    for (name, count) in counts {
        fields[name.replace(' ', "_")] = Value::from(count);
    }
    Told::done(text, fields)
}
