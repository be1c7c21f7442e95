//! An image as a command is given it: the file, read whole into memory, the drive and the partition, named or found.
//!
//! An image is read and not mapped: it has at most 37 MB, every command walks all of it to find its partitions, and a file
//! that shrinks while it is mapped would end the program.

use crate::asked::{not_an_image, Asked};
use crate::drive::{the_drive, DriveArguments};
use crate::layout::{self, Layout};
use crate::names::{self, shown};
use crate::outcome::Outcome;
use crate::problem::Problem;
use clap::Args;
use perq::{Drive, Refusal, RECORD};
use std::fs::{self, File, Metadata, OpenOptions};
use std::io::Read;
use std::os::unix::fs::{FileTypeExt, OpenOptionsExt};
use std::path::{Path, PathBuf};

/// An image on the command line.
#[derive(Args)]
pub struct ImageArguments {
    /// The image, a file of 528-byte records
    #[arg(value_parser = names::path())]
    pub image: PathBuf,
    #[command(flatten)]
    pub drive: DriveArguments,
}

/// A partition of an image on the command line.
#[derive(Args)]
pub struct PartitionArguments {
    #[command(flatten)]
    pub image: ImageArguments,
    /// The partition's first block [default: the only partition there is]
    #[arg(long, value_name = "S")]
    pub partition: Option<u32>,
}

/// The bytes of an image. Whatever cannot be one is not opened.
pub fn read(path: &Path) -> Result<Vec<u8>, Problem> {
    contents(path, &mut open(path, false)?)
}

/// Opens what may be an image. It is asked what it is before, since opening a pipe would wait for its other end, and once
/// more when it is open.
pub fn open(path: &Path, to_write: bool) -> Result<File, Problem> {
    let problem = |error| Problem::system("read", path, &error);
    may_be_an_image(path, &fs::metadata(path).map_err(problem)?)?;
    let mut options = OpenOptions::new();
    options.read(true).write(to_write).custom_flags(libc::O_NONBLOCK);
    let file = options.open(path).map_err(|error| match to_write {
        true => Problem::system("write to", path, &error),
        false => problem(error),
    })?;
    may_be_an_image(path, &file.metadata().map_err(problem)?)?;
    Ok(file)
}

/// All bytes of a file that is open. One that changes its length meanwhile is no image of anything.
pub fn contents(path: &Path, file: &mut File) -> Result<Vec<u8>, Problem> {
    let problem = |error| Problem::system("read", path, &error);
    let length = file.metadata().map_err(problem)?.len();
    let mut bytes = Vec::with_capacity(length as usize + 1);
    file.take(length + 1).read_to_end(&mut bytes).map_err(problem)?;
    if bytes.len() as u64 != length {
        let told = format!("cannot read {}: it changed its length meanwhile", shown(path));
        return Err(Problem::new(Outcome::Unreadable, told));
    }
    Ok(bytes)
}

/// The bytes of a file that is no image, `most` at most and one more, which tells that there are too many.
pub fn some(path: &Path, most: usize) -> Result<Vec<u8>, Problem> {
    let problem = |error| Problem::system("read", path, &error);
    let mut bytes = Vec::new();
    let file = File::open(path).map_err(problem)?;
    file.take(most as u64 + 1).read_to_end(&mut bytes).map_err(problem)?;
    Ok(bytes)
}

/// An image is a regular file, of a length that some drive may have.
fn may_be_an_image(path: &Path, metadata: &Metadata) -> Result<(), Problem> {
    if !metadata.is_file() {
        let told = format!("cannot read {}: it is {}", shown(path), sort(metadata));
        return Err(Problem::new(Outcome::Unreadable, told));
    }
    let (largest, length) = (Drive::Micropolis35, metadata.len());
    let blocks = length / RECORD as u64;
    if length % RECORD as u64 != 0 || blocks == 0 || blocks > u64::from(largest.blocks()) {
        return Err(Problem::refused(Refusal::Image, &not_an_image(length, largest)));
    }
    Ok(())
}

/// What a file is that is no regular one.
fn sort(metadata: &Metadata) -> &'static str {
    let sort = metadata.file_type();
    if sort.is_dir() {
        "a folder, and an image is a regular file"
    } else if sort.is_fifo() {
        "a pipe, and an image is a regular file"
    } else {
        "a device or a socket, and an image is a regular file"
    }
}

/// The partition that was named, or the only one there is.
pub fn the_partition(image: &[u8], drive: Drive, named: Option<u32>) -> Result<u32, Problem> {
    if let Some(s) = named {
        return Ok(s);
    }
    let layout =
        Layout::of(image, drive).map_err(|refusal| Asked::of(image, drive, 0).refused(refusal))?;
    let blocks: Vec<u32> = layout.partitions().map(|place| place.s).collect();
    match blocks[..] {
        [s] => Ok(s),
        [] => Err(layout::none()),
        _ => Err(Problem::usage(format!(
            "the image has {} partitions, at blocks {}: name one with --partition",
            blocks.len(),
            listed(&blocks)
        ))),
    }
}

/// Block numbers in a row; a long row is cut short.
fn listed(blocks: &[u32]) -> String {
    const MOST: usize = 10;
    let shown: Vec<String> = blocks.iter().take(MOST).map(u32::to_string).collect();
    let rest = if blocks.len() > MOST { ", ..." } else { "" };
    format!("{}{rest}", shown.join(", "))
}

/// An image that is only read, with the drive and the partition that a command is about.
pub struct Reading {
    pub bytes: Vec<u8>,
    pub drive: Drive,
    pub s: u32,
}

impl Reading {
    pub fn open(arguments: &PartitionArguments) -> Result<Reading, Problem> {
        let bytes = read(&arguments.image.image)?;
        let drive = the_drive(&bytes, arguments.image.drive)?;
        let s = the_partition(&bytes, drive, arguments.partition)?;
        Ok(Reading { bytes, drive, s })
    }

    pub fn asked(&self) -> Asked<'_> {
        Asked::of(&self.bytes, self.drive, self.s)
    }
}
