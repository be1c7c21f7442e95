//! The drive of an image: named on the command line, or known by the image's size.

use crate::layout::Layout;
use crate::problem::Problem;
use crate::told::counted;
use clap::Args;
use perq::{Drive, RECORD};

const NAMES: [&str; 4] = ["shugart12", "shugart24", "micropolis35", "floppy"];

/// The drive on the command line.
#[derive(Args, Clone, Copy)]
pub struct DriveArguments {
    /// The drive: 0 or shugart12, 1 or shugart24, 2 or micropolis35, 3 or floppy [default: by the image's size]
    #[arg(long, value_parser = parse)]
    pub drive: Option<Drive>,
    /// Take the drive that is named even where the image's size is another one's
    #[arg(long, requires = "drive")]
    pub force_drive: bool,
}

/// What `--drive` takes: a number or a name.
pub fn parse(text: &str) -> Result<Drive, String> {
    let by_name = NAMES.iter().position(|&name| name == text).map(|place| Drive::ALL[place]);
    let by_number = || text.parse().ok().and_then(Drive::from_number);
    by_name.or_else(by_number).ok_or_else(|| format!("it is 0 to 3 or one of {}", NAMES.join(", ")))
}

/// The drive that has as many blocks as an image of this length.
pub fn guess(length: usize) -> Option<Drive> {
    Drive::ALL.into_iter().find(|drive| drive.blocks() as usize * RECORD == length)
}

/// A drive by number and name.
pub fn told(drive: Drive) -> String {
    format!("drive {} ({drive})", drive.number())
}

/// The drive that the image's size decides, or else the one that was named. An image read as another drive's has no files,
/// and a repair would take all its blocks for free; so a name that goes against the size must be insisted on.
pub fn the_drive(image: &[u8], arguments: DriveArguments) -> Result<Drive, Problem> {
    let by_size = guess(image.len());
    match (arguments.drive, by_size) {
        (Some(named), Some(decided)) if named != decided && !arguments.force_drive => {
            Err(Problem::usage(format!(
                "the image has {} blocks, as {} has, and not {}; --force-drive insists on it",
                image.len() / RECORD,
                told(decided),
                told(named)
            )))
        }
        (Some(drive), _) | (None, Some(drive)) => Ok(drive),
        (None, None) => Err(unknown(image)),
    }
}

/// What is said where neither size nor name tells: the drives under which the image has well formed files.
fn unknown(image: &[u8]) -> Problem {
    let files = |drive| Layout::of(image, drive).map_or(0, |layout| layout.files(image, drive));
    let tried = Drive::ALL.into_iter().map(|drive| (drive, files(drive)));
    let found: Vec<String> = tried
        .filter(|&(_, files)| files > 0)
        .map(|(drive, files)| format!("{} as {}", counted(files, "file"), told(drive)))
        .collect();
    let found = match found.is_empty() {
        true => "no file as any of the four".to_string(),
        false => found.join(", "),
    };
    Problem::usage(format!(
        "the image has {} blocks, as no drive has: name its drive with --drive; it has {found}",
        image.len() / RECORD
    ))
}
