//! `tapermoss batch`: every image of a folder. Sound ones are left, unsound ones repaired beside the original, and what a
//! person must look at is said at the end.

mod report;

use crate::drive::DriveArguments;
use crate::keep;
use crate::mend::{mend, Mended, Request};
use crate::outcome::Outcome;
use crate::problem::Problem;
use crate::repairing::Wish;
use crate::told::Told;
use clap::Args;
use indicatif::{ProgressBar, ProgressStyle};
use std::ffi::OsString;
use std::fs;
use std::num::NonZeroUsize;
use std::panic::{catch_unwind, AssertUnwindSafe};
use std::path::{Path, PathBuf};
use std::sync::atomic::{AtomicUsize, Ordering};
use std::sync::Mutex;
use std::thread;

pub const EXAMPLES: &str = "\
Every file of the folder is taken for an image, but for hidden ones and for what this tool has put beside an image
(IMAGE.repaired, IMAGE.svg, IMAGE.png); folders inside are not entered. Nothing is moved, and no image is changed. The
partitions of an image are those that its table at LBN 0 lists, good or not, and every other good one that shares no block
with one of them; each has its line in the report unless it is the only one. IMAGE.repaired holds the image with its unsound
partitions repaired. One that is there already is compared with what repair makes of the image now.

What comes of an image is what comes of its worst partition, and the exit status is that of the worst image:
  sound         0  every partition is sound
  repaired      3  IMAGE.repaired holds the image with its partitions sound
  set aside     4  a person must look: a malformed file block, files that repair would lose, partitions that share blocks
  another file  6  IMAGE.repaired is there and is not this image's repair; both are kept
  refused       1  the library refuses: no image, no good partition, no free block
  wrong use     2  the drive is not known, or not the one that was named
  unreadable    5  the system cannot read, write or lock it

Examples:
  tapermoss batch images
  tapermoss batch images --jobs 4 --json > report.json";

#[derive(Args)]
pub struct Arguments {
    /// The folder of images
    folder: PathBuf,
    #[command(flatten)]
    drive: DriveArguments,
    /// How many images at a time [default: as many as there are cores]
    #[arg(long, value_name = "N")]
    jobs: Option<NonZeroUsize>,
    /// Replace repaired images that are there already, and repair where files may be lost
    #[arg(long)]
    force: bool,
}

/// An image that was looked at, or why it could not be.
pub struct Judged {
    pub name: OsString,
    pub result: Result<Mended, Problem>,
}

/// The names of the images of a folder, in order.
fn images(folder: &Path) -> Result<Vec<OsString>, Problem> {
    let problem = |error| Problem::system("read", folder, &error);
    let mut names = Vec::new();
    for entry in fs::read_dir(folder).map_err(problem)? {
        let name = entry.map_err(problem)?.file_name();
        if is_image(folder, &name) {
            names.push(name);
        }
    }
    names.sort();
    Ok(names)
}

fn is_image(folder: &Path, name: &OsString) -> bool {
    let path = folder.join(name);
    let hidden = name.as_encoded_bytes().starts_with(b".");
    let ending = path.extension().and_then(|ending| ending.to_str());
    let ours =
        matches!(ending, Some("repaired" | "svg" | "png")) && path.with_extension("").is_file();
    !hidden && !ours && !path.is_dir()
}

/// Repairs one image where that helps; even a failure of this program ends only the one.
fn judge(arguments: &Arguments, name: &OsString) -> Judged {
    let path = arguments.folder.join(name);
    let request = Request {
        drive: arguments.drive,
        partition: None,
        to: Some(keep::beside(&path, ".repaired")),
        wish: Wish { force: arguments.force, anyway: false },
        limit: None,
    };
    let failed = || {
        Err(Problem::new(Outcome::Unreadable, "the tool itself failed on this image".to_string()))
    };
    let result = catch_unwind(AssertUnwindSafe(|| mend(&path, &request)));
    Judged { name: name.clone(), result: result.unwrap_or_else(|_| failed()) }
}

/// Judges all images, some at a time; answers them in the order of their names.
fn judge_all(arguments: &Arguments, names: &[OsString], bar: &ProgressBar) -> Vec<Judged> {
    let cores = || thread::available_parallelism().map_or(1, NonZeroUsize::get);
    let jobs = arguments.jobs.map_or_else(cores, NonZeroUsize::get).min(names.len());
    let next = AtomicUsize::new(0);
    let found = Mutex::new(Vec::with_capacity(names.len()));
    thread::scope(|scope| {
        for _ in 0..jobs {
            scope.spawn(|| {
                while let Some((i, name)) = take(&next, names) {
                    let judged = judge(arguments, name);
                    found.lock().expect("no job fails while it holds it").push((i, judged));
                    bar.inc(1);
                }
            });
        }
    });
    let mut found = found.into_inner().expect("no job fails while it holds it");
    found.sort_by_key(|&(i, _)| i);
    found.into_iter().map(|(_, judged)| judged).collect()
}

/// The next image that no job has taken.
fn take<'a>(next: &AtomicUsize, names: &'a [OsString]) -> Option<(usize, &'a OsString)> {
    let i = next.fetch_add(1, Ordering::Relaxed);
    Some((i, names.get(i)?))
}

pub fn run(arguments: &Arguments) -> Result<Told, Problem> {
    let names = images(&arguments.folder)?;
    let style = ProgressStyle::with_template("{bar:40} {pos} of {len} images, {eta} left");
    let bar = ProgressBar::new(names.len() as u64).with_style(style.expect("a right template"));
    let judged = judge_all(arguments, &names, &bar);
    bar.finish_and_clear();
    Ok(report::told(&judged))
}
