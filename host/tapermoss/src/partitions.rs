//! `tapermoss partitions`: every block at which a good partition starts, and what the device's own table says of it.

use crate::asked::Asked;
use crate::drive::the_drive;
use crate::image::{read, ImageArguments};
use crate::layout::{Layout, Place, Standing};
use crate::names::hex;
use crate::problem::Problem;
use crate::told::Told;
use crate::{fields, rows};
use clap::Args;
use perq::{Drive, RECORD};
use serde_json::{json, Value};

pub const EXAMPLES: &str = "\
A block names a good partition if it says so itself; the table at LBN 0 lists those that the device knows.

Examples:
  tapermoss partitions disk.img
  tapermoss partitions --json --drive shugart24 disk.img";

#[derive(Args)]
pub struct Arguments {
    #[command(flatten)]
    image: ImageArguments,
}

/// What is known of the whole image.
struct Found<'a> {
    image: &'a [u8],
    drive: Drive,
    layout: Layout,
}

impl Found<'_> {
    fn blocks(&self) -> usize {
        self.image.len() / RECORD
    }

    /// The good partitions, with first and last block.
    fn good(&self) -> impl Iterator<Item = (&Place, u32)> {
        self.layout.places().filter_map(|place| Some((place, place.last?)))
    }

    fn not_good(&self) -> impl Iterator<Item = &Place> {
        self.layout.places().filter(|place| place.standing == Standing::NotGood)
    }
}

fn as_json(found: &Found) -> Value {
    let partition = |(place, last): (&Place, u32)| {
        let name = fields::partition_name(found.image, place.s);
        let mut object = place.as_json();
        object["blocks"] = json!(last - place.s + 1);
        object["name"] = json!(fields::escaped(name));
        object["name_bytes"] = json!(hex(name));
        object["doubt"] = json!(place.doubt());
        object
    };
    json!({
        "drive": found.drive.number(),
        "blocks": found.blocks(),
        "device": fields::escaped(fields::partition_name(found.image, 0)),
        "partitions": found.good().map(partition).collect::<Vec<_>>(),
        "listed_but_not_good": found.not_good().map(|place| place.s).collect::<Vec<_>>(),
    })
}

/// A name, or a stroke for none.
fn shown(name: &[u8]) -> String {
    if name.is_empty() {
        return "-".to_string();
    }
    fields::escaped(name)
}

fn as_text(found: &Found) -> String {
    let (drive, blocks) = (found.drive, found.blocks());
    let device = shown(fields::partition_name(found.image, 0));
    let mut text =
        format!("drive   {} ({drive})\nblocks  {blocks}\ndevice  {device}\n\n", drive.number());
    text += " first   last  blocks  listed  name\n";
    for (place, last) in found.good() {
        let listed = if place.listed { "yes" } else { "no" };
        let (s, size) = (place.s, last - place.s + 1);
        let name = shown(fields::partition_name(found.image, s));
        text += &format!("{s:>6} {last:>6}  {size:>6}  {listed:<6}  {name}\n");
    }
    let doubts = found.layout.places().filter_map(Place::doubt);
    let lines = rows::mentions(&found.layout, &[]).into_iter().chain(doubts);
    text + &lines.map(|line| format!("{line}\n")).collect::<String>()
}

pub fn run(arguments: &Arguments) -> Result<Told, Problem> {
    let image = &read(&arguments.image.image)?;
    let drive = the_drive(image, arguments.image.drive)?;
    let layout =
        Layout::of(image, drive).map_err(|refusal| Asked::of(image, drive, 0).refused(refusal))?;
    let found = Found { image, drive, layout };
    Ok(Told::done(as_text(&found), as_json(&found)))
}
