//! `tapermoss check`: whether the partitions of an image are sound, and what they hold.

use crate::asked::Asked;
use crate::drive::the_drive;
use crate::image::{read, ImageArguments};
use crate::layout::Layout;
use crate::outcome::Outcome;
use crate::problem::Problem;
use crate::rows::{self, Row};
use crate::told::Told;
use clap::Args;
use perq::Drive;
use serde_json::{json, Value};

pub const EXAMPLES: &str = "\
All partitions of the image are checked, or the one that is named. One that is not sound is refused with number 4 (a
malformed file block, which a person must look at) or 5 (all else; what helps is said).

Examples:
  tapermoss check disk.img
  tapermoss check --partition 210 --json disk.img";

#[derive(Args)]
pub struct Arguments {
    #[command(flatten)]
    image: ImageArguments,
    /// The first block of the partition [default: all partitions]
    #[arg(long, value_name = "S")]
    partition: Option<u32>,
}

pub fn run(arguments: &Arguments) -> Result<Told, Problem> {
    let image = read(&arguments.image.image)?;
    let drive = the_drive(&image, arguments.image.drive)?;
    let layout = Layout::of(&image, drive)
        .map_err(|refusal| Asked::of(&image, drive, 0).refused(refusal))?;
    let places = rows::chosen(&layout, arguments.partition)?;
    let rows: Vec<Row> = places.iter().map(|place| Row::checked(&image, drive, place)).collect();
    Ok(told(&rows, "sound", drive, &layout))
}

/// What is said of the partitions that were looked at, a line each. A single one that is not sound is a complaint like any
/// other.
pub fn told(rows: &[Row], sound: &str, drive: Drive, layout: &Layout) -> Told {
    let worst = rows::worst(rows);
    let problem = worst.and_then(Row::problem);
    let lines: Vec<String> = rows.iter().map(|row| row.line(sound)).collect();
    let (out, mut aside) = match (&lines[..], &problem) {
        ([line], Some(_)) => (String::new(), vec![format!("tapermoss: {line}")]),
        _ => (lines.join("\n") + "\n", Vec::new()),
    };
    aside.extend(rows::mentions(layout, rows));
    let fields = json!({
        "drive": drive.number(),
        "partitions": rows.iter().map(Row::as_json).collect::<Vec<Value>>(),
        "not_taken": rows::not_taken(layout, rows),
    });
    let outcome = worst.map_or(Outcome::Done, Row::outcome);
    Told { outcome, problem, out: out.into_bytes(), aside, fields }
}
