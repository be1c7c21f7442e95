//! `tapermoss show`: one block of a file, from an image or from a pair of an original and a repaired one.

use crate::asked::Asked;
use crate::drive::{the_drive, DriveArguments};
use crate::image::{read, the_partition};
use crate::named::{NamedFile, Wanted};
use crate::names;
use crate::outcome::Outcome;
use crate::pair::{self, Pair};
use crate::problem::Problem;
use crate::told::Told;
use clap::Args;
use perq::{Drive, Source, DATA, RECORD};
use serde_json::json;
use std::path::{Path, PathBuf};

pub const EXAMPLES: &str = "\
From a pair the repaired image answers unless it refuses; then the original does, its refusal included. Which one it was is
said before the bytes, with --raw on standard error. A path is looked up in the image that answers: the repaired one unless
it refuses the path or a dangling entry stands in its way, in the middle or at its end. A block that the file does not have,
or a path that leads to no file, has exit status 7.

Examples:
  tapermoss show disk.img --file 211 --block 0
  tapermoss show disk.img --file 211 --block 0 --raw > block
  tapermoss show disk.img --path 'letters>first.text' --block 0
  tapermoss show --original disk.img --repaired disk.img.repaired --file 211 --block 3";

#[derive(Args)]
pub struct Arguments {
    /// The image, a file of 528-byte records
    #[arg(required_unless_present_all = ["original", "repaired"], conflicts_with_all = ["original", "repaired"])]
    #[arg(value_parser = names::path())]
    image: Option<PathBuf>,
    /// The image of a pair that was never changed
    #[arg(long, value_name = "IMAGE", requires = "repaired", value_parser = names::path())]
    original: Option<PathBuf>,
    /// The image of a pair that repair made
    #[arg(long, value_name = "IMAGE", requires = "original", value_parser = names::path())]
    repaired: Option<PathBuf>,
    #[command(flatten)]
    drive: DriveArguments,
    /// The partition's first block [default: the only partition there is]
    #[arg(long, value_name = "S")]
    partition: Option<u32>,
    #[command(flatten)]
    file: NamedFile,
    /// Which block of the file, from 0
    #[arg(long, value_name = "R")]
    block: u32,
    /// The 512 bytes as they are, not in hex
    #[arg(long)]
    raw: bool,
}

/// A block that was asked for, and where it was found.
pub struct Found<'a> {
    pub file: u32,
    pub bytes: Option<&'a [u8]>,
    pub image: &'a [u8],
    /// Which image of a pair has answered.
    pub from: Option<Source>,
}

pub fn run(arguments: &Arguments) -> Result<Told, Problem> {
    match (&arguments.image, &arguments.original, &arguments.repaired) {
        (Some(image), _, _) => from_one(arguments, &read(image)?),
        (None, Some(original), Some(repaired)) => from_pair(arguments, original, repaired),
        _ => Err(Problem::usage("name an image, or both --original and --repaired")),
    }
}

fn from_one(arguments: &Arguments, image: &[u8]) -> Result<Told, Problem> {
    let drive = the_drive(image, arguments.drive)?;
    let s = the_partition(image, drive, arguments.partition)?;
    let file = arguments.file.find(image, drive, s)?;
    let bytes = shown(image, drive, s, file, arguments.block)?;
    Ok(told(arguments, &Found { file, bytes, image, from: None }))
}

/// A block of one image.
pub fn shown(
    image: &[u8],
    drive: Drive,
    s: u32,
    file: u32,
    block: u32,
) -> Result<Option<&[u8]>, Problem> {
    perq::show(image, drive, s, file, block)
        .map_err(|refusal| Asked::of(image, drive, s).file(file).block(block).refused(refusal))
}

fn from_pair(arguments: &Arguments, original: &Path, repaired: &Path) -> Result<Told, Problem> {
    let wanted = arguments.file.wanted()?;
    let (original, repaired) = (pair::or_empty(original)?, pair::or_empty(repaired)?);
    let pair = Pair::of(&original, &repaired, arguments.drive, arguments.partition)?;
    let found = match wanted {
        Wanted::Block(file) => pair.by_block(file, arguments.block)?,
        Wanted::Path { path, rule } => pair.by_path(&path, rule, arguments.block)?,
    };
    Ok(told(arguments, &found))
}

/// The block, a part of the image, after a line that says where it was found.
fn told(arguments: &Arguments, found: &Found) -> Told {
    let Arguments { block, raw, .. } = *arguments;
    let file = found.file;
    let answered = found.from.map_or("", pair::answered);
    let source = found.from.map(|from| match from {
        Source::Repaired => "repaired",
        Source::Original => "original",
    });
    let at = |bytes: &[u8]| (bytes.as_ptr() as usize - found.image.as_ptr() as usize) / RECORD;
    let line = match found.bytes {
        Some(bytes) => format!("{answered}block {block} of file {file} is block {}", at(bytes)),
        None => format!("{answered}file {file} has no block {block}: it ends before"),
    };
    let fields = json!({
        "file": file, "relative": block, "lbn": found.bytes.map(at), "source": source,
        "bytes": found.bytes.map(names::hex),
    });
    let problem = match found.bytes {
        Some(_) => None,
        None => Some(Problem::new(Outcome::Absent, line.clone())),
    };
    let outcome = problem.as_ref().map_or(Outcome::Done, |problem| problem.outcome);
    let bytes = found.bytes.unwrap_or_default();
    let (out, aside) = match raw {
        true => (bytes.to_vec(), vec![line]),
        false => (format!("{line}\n{}", hex(bytes)).into_bytes(), Vec::new()),
    };
    Told { outcome, problem, out, aside, fields }
}

/// 16 bytes to a line: where, in hex, and as characters.
fn hex(bytes: &[u8]) -> String {
    let mut text = String::with_capacity(5 * DATA);
    for (i, line) in bytes.chunks(16).enumerate() {
        let numbers: Vec<String> = line.iter().map(|byte| format!("{byte:02x}")).collect();
        let shown = |&byte: &u8| if (b' '..=b'~').contains(&byte) { char::from(byte) } else { '.' };
        let characters: String = line.iter().map(shown).collect();
        text += &format!("{:03x}  {}  {characters}\n", 16 * i, numbers.join(" "));
    }
    text
}
