//! `tapermoss fresh`: a new image with one partition and no files, to try things on.

use crate::fields::{place, PARTITION_END, PARTITION_NAME, SUB_PARTITIONS};
use crate::keep::{self, Existing, Like};
use crate::names::{name_bytes, shown};
use crate::problem::Problem;
use crate::told::Told;
use crate::{drive, rows};
use clap::Args;
use perq::{Drive, Refusal, ALL, RECORD};
use serde_json::json;
use std::path::PathBuf;

pub const EXAMPLES: &str = "\
The partition starts where the PERQ's own software puts a drive's first one (90, 210, 72 or 6) and goes on to the end of the
image, 32,767 blocks at most; the device's table at LBN 0 lists it.

Examples:
  tapermoss fresh sample.img --drive floppy
  tapermoss fresh small.img --drive shugart12 --blocks 500 --first 90 --last 400 --name TRIAL";

const PARTITION_START: usize = PARTITION_END - 2;
const LARGEST: u32 = 32_767;

#[derive(Args)]
pub struct Arguments {
    /// The image to make
    image: PathBuf,
    /// The drive: 0 or shugart12, 1 or shugart24, 2 or micropolis35, 3 or floppy
    #[arg(long, value_parser = drive::parse)]
    drive: Drive,
    /// How many blocks the image has [default: as many as the drive]
    #[arg(long, value_name = "N")]
    blocks: Option<u32>,
    /// The partition's first block
    #[arg(long, value_name = "S")]
    first: Option<u32>,
    /// The partition's last block
    #[arg(long, value_name = "E")]
    last: Option<u32>,
    /// The partition's name, up to 8 characters
    #[arg(long, default_value = "SAMPLE", value_parser = name)]
    name: String,
    /// Replace a file that has the name already
    #[arg(long)]
    force: bool,
}

fn name(text: &str) -> Result<String, String> {
    if (1..=8).contains(&text.len()) && text.bytes().all(|byte| byte.is_ascii_graphic()) {
        return Ok(text.to_string());
    }
    Err("a partition's name is 1 to 8 printable ASCII characters".to_string())
}

/// The blocks n, s and e that the arguments name or leave to the drive.
fn blocks(arguments: &Arguments) -> Result<(u32, u32, u32), Problem> {
    let drive = arguments.drive;
    let n = arguments.blocks.unwrap_or(drive.blocks());
    let s = arguments.first.unwrap_or([90, 210, 72, 6][drive.number() as usize]);
    let by_default = n.saturating_sub(1).min(s.saturating_add(LARGEST - 1));
    let e = arguments.last.unwrap_or(by_default);
    if n > drive.blocks() {
        let told = format!("drive {} has only {} blocks", drive.number(), drive.blocks());
        return Err(Problem::usage(told));
    }
    if let Some(other) = drive::guess(RECORD * n as usize).filter(|&other| other != drive) {
        let told = format!("an image of {n} blocks is taken for {}", drive::told(other));
        return Err(Problem::usage(told));
    }
    if s == 0 || s >= e || e >= n || e - s >= LARGEST {
        return Err(Problem::usage(format!(
            "blocks {s} to {e} of {n} are no partition: it starts at 1 or later and has 2 to {LARGEST} blocks"
        )));
    }
    Ok((n, s, e))
}

/// The image: the partition blank but for its name, the device's block with its table, and then repair.
fn fresh(drive: Drive, n: u32, s: u32, e: u32, name: &str) -> Result<Vec<u8>, Refusal> {
    let mut image = perq::blank(drive, n, s, e)?;
    let mut name_of = |b: u32, name: &str| {
        let bytes = format!("{name:<8}");
        image[place(b, PARTITION_NAME)..][..8].copy_from_slice(bytes.as_bytes());
    };
    name_of(s, name);
    name_of(0, "DEVICE");
    for (k, block) in [(PARTITION_START, 0), (PARTITION_END, n - 1), (SUB_PARTITIONS, s)] {
        let lda = perq::lbn_to_lda(drive, block)?;
        image[place(0, k)..][..4].copy_from_slice(&lda.to_le_bytes());
    }
    perq::repair(&mut image, drive, s, ALL)?;
    Ok(image)
}

pub fn run(arguments: &Arguments) -> Result<Told, Problem> {
    let (n, s, e) = blocks(arguments)?;
    let image = fresh(arguments.drive, n, s, e, &arguments.name)?;
    let summary = perq::check(&image, arguments.drive, s)?;
    let notes = keep::put(&arguments.image, &image, Like::New, Existing::under(arguments.force))?;
    let (name, written) = (&arguments.name, shown(&arguments.image));
    let text =
        format!("partition {name} at block {s}: {}\nwritten to {written}\n", rows::told(summary));
    let fields = json!({"drive": arguments.drive.number(), "blocks": n, "first": s, "last": e, "name": name, "written": written, "written_bytes": name_bytes(&arguments.image)});
    Ok(Told { aside: notes, ..Told::done(text, fields) })
}
