//! `tapermoss repair`: every file linked and every free block chained anew, in all partitions of an image.

use super::TargetArguments;
use crate::check;
use crate::image::ImageArguments;
use crate::keep;
use crate::mend::{mend, Mended, Request, Written};
use crate::names::{name_bytes, shown};
use crate::problem::Problem;
use crate::repairing::Wish;
use crate::told::Told;
use clap::Args;
use serde_json::json;

pub const EXAMPLES: &str = "\
All partitions that are not sound are repaired, or the one that is named; a sound one is left as it is, since the headers of
its free blocks may tell of files that were destroyed. The new image is IMAGE.repaired unless --output or --in-place is
given; with the old one it is the pair that `show` reads from. If it is there already, and differs from the image only in
partitions that were repaired, what is repaired now is added to it. A partition with a malformed file block is set aside
(number 4): which of its blocks are free is not known. So is one of which repair would leave no file, or fewer than it would
have on another drive, unless --force is said.

Examples:
  tapermoss repair disk.img
  tapermoss repair disk.img --partition 210 --output mended.img";

#[derive(Args)]
pub struct Arguments {
    #[command(flatten)]
    image: ImageArguments,
    /// The first block of the partition [default: all partitions]
    #[arg(long, value_name = "S")]
    partition: Option<u32>,
    #[command(flatten)]
    target: TargetArguments,
    /// Replace a file that has the new image's name already, and repair where files may be lost
    #[arg(long)]
    force: bool,
    /// Repair sound partitions too
    #[arg(long)]
    anyway: bool,
}

pub fn run(arguments: &Arguments) -> Result<Told, Problem> {
    let image = &arguments.image.image;
    let to = arguments.target.path(image, ".repaired");
    if let Some(to) = &to {
        keep::must_be_another(to, image)?;
    }
    let request = Request {
        drive: arguments.image.drive,
        partition: arguments.partition,
        to,
        wish: Wish { force: arguments.force, anyway: arguments.anyway },
        limit: arguments.target.limit,
    };
    let mended = mend(image, &request)?;
    Ok(told(mended, arguments))
}

fn told(mended: Mended, arguments: &Arguments) -> Told {
    let sound = "sound, nothing to repair";
    let mut told = check::told(&mended.rows, sound, mended.drive, &mended.layout);
    let (line, written, earlier) = match &mended.written {
        Written::Nowhere => (String::new(), None, false),
        Written::There(to) => {
            let to = if arguments.target.in_place { &arguments.image.image } else { to };
            (format!("written to {}\n", shown(to)), Some(to), false)
        }
        Written::Earlier(to) => {
            (format!("{} is there already, the same\n", shown(to)), Some(to), true)
        }
    };
    told.out.extend(line.into_bytes());
    told.aside.extend(mended.notes);
    told.fields["written"] = json!(written.map(|to| shown(to)));
    told.fields["written_bytes"] = json!(written.map(|to| name_bytes(to)));
    told.fields["earlier"] = json!(earlier);
    told
}
