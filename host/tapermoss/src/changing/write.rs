//! `tapermoss write`: bytes into a file, block by block.

use super::{Changing, FileArguments};
use crate::image::some;
use crate::index;
use crate::names::{self, shown};
use crate::problem::Problem;
use crate::told::{counted, Told};
use clap::Args;
use indicatif::ProgressBar;
use perq::{Refusal, DATA};
use serde_json::json;
use std::path::PathBuf;

pub const EXAMPLES: &str = "\
Blocks that the file has are replaced, the next ones appended; the last one is filled up with zeros. Bytes that do not fit
are refused before the first block is written, and no image is written at all. The new image is IMAGE.new unless --output or
--in-place is given.

Examples:
  tapermoss write disk.img --file 211 --from letter.text
  tapermoss write disk.img --path 'letters>first.text' --from letter.text
  tapermoss write disk.img --file 211 --from letter.text --block 4 --output work.img
  tapermoss write disk.img --file 211 --from letter.text --limit 2 --output cut.img";

#[derive(Args)]
pub struct Arguments {
    #[command(flatten)]
    file: FileArguments,
    /// Where the bytes are; - is standard input
    #[arg(long, value_name = "PATH", value_parser = names::path())]
    from: PathBuf,
    /// The first block to write
    #[arg(long, value_name = "R", default_value_t = 0)]
    block: u32,
}

pub fn run(arguments: &Arguments) -> Result<Told, Problem> {
    let bytes = some(&arguments.from, DATA * (index::LAST as usize + 1))?;
    if bytes.is_empty() {
        return Err(Problem::usage(format!("{} has no bytes to write", shown(&arguments.from))));
    }
    arguments.file.carry_out(|image, file| {
        must_fit(image, file, arguments.block, bytes.len().div_ceil(DATA) as u32)?;
        let (blocks, made) = write(image, file, arguments.block, &bytes)?;
        let stores = image.stores(made);
        let written = match image.left {
            0 => format!("as far as block {}", arguments.block + blocks - 1),
            _ => format!("{} written", counted(blocks, "block")),
        };
        let text = format!("file {file}, {written}: {stores}");
        Ok((text, json!({"file": file, "blocks": blocks, "stores": made})))
    })
}

/// Refuses what does not fit. Anything else that is wrong is for the first block's own call to refuse.
fn must_fit(image: &Changing, f: u32, first: u32, blocks: u32) -> Result<(), Problem> {
    let Ok(summary) = perq::check(&image.bytes, image.drive, image.s) else { return Ok(()) };
    if perq::description(&image.bytes, image.drive, image.s, f).is_err() {
        return Ok(());
    }
    let has = index::length(&image.bytes, f);
    if first > has {
        return Ok(());
    }
    let end = first.saturating_add(blocks);
    if end > index::LAST + 1 {
        return Err(too_far(f, end - 1));
    }
    let needed = index::needed(end.max(has)) - index::needed(has);
    if needed >= summary.free && needed > 0 {
        let told = format!(
            "file {f} needs {} more, and the partition at block {} has {} free, of which one must stay",
            counted(needed, "block"),
            image.s,
            summary.free
        );
        return Err(Problem::refused(Refusal::Full, &told));
    }
    Ok(())
}

fn too_far(f: u32, r: u32) -> Problem {
    let told =
        format!("file {f} cannot take block {r}: the last that a file can have is {}", index::LAST);
    Problem::refused(Refusal::Range, &told)
}

/// Writes the bytes from block `first` on, until the limit is reached; answers how many blocks and how many stores these
/// were, a block that the limit cut among them.
fn write(image: &mut Changing, f: u32, first: u32, bytes: &[u8]) -> Result<(u32, u32), Problem> {
    let bar = ProgressBar::new(bytes.len().div_ceil(DATA) as u64);
    let (mut blocks, mut made) = (0, 0);
    for part in bytes.chunks(DATA) {
        let r = first.saturating_add(blocks);
        let mut data = [0; DATA];
        data[..part.len()].copy_from_slice(part);
        made += perq::write(&mut image.bytes, image.drive, image.s, f, r, &data, image.left - made)
            .map_err(|refusal| refused(image, f, r, refusal))?;
        blocks += 1;
        bar.inc(1);
        if made == image.left {
            break;
        }
    }
    bar.finish_and_clear();
    Ok((blocks, made))
}

/// The refusal of block r, which in a write may also be too far behind the last one.
fn refused(image: &Changing, f: u32, r: u32, refusal: Refusal) -> Problem {
    match refusal {
        Refusal::Range if r > index::LAST => too_far(f, r),
        Refusal::Range => {
            let told =
                format!("file {f} cannot take block {r}: it is not there, and not the next one");
            Problem::refused(refusal, &told)
        }
        _ => image.asked().file(f).block(r).refused(refusal),
    }
}
