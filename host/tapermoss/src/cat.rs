//! `tapermoss cat`: a whole file to standard output.

use crate::image::{PartitionArguments, Reading};
use crate::named::NamedFile;
use crate::names::hex;
use crate::problem::Problem;
use crate::told::Told;
use clap::Args;
use perq::DATA;
use serde_json::json;

pub const EXAMPLES: &str = "\
All 512 bytes of every block come out, those behind the end of a text in its last block too; with --json in hex.

Examples:
  tapermoss cat disk.img --file 211 > letter.text
  tapermoss cat disk.img --path 'letters>first.text' > letter.text
  tapermoss cat --partition 210 disk.img --file 211 | strings";

#[derive(Args)]
pub struct Arguments {
    #[command(flatten)]
    place: PartitionArguments,
    #[command(flatten)]
    file: NamedFile,
}

pub fn run(arguments: &Arguments) -> Result<Told, Problem> {
    let image = Reading::open(&arguments.place)?;
    let file = arguments.file.find(&image.bytes, image.drive, image.s)?;
    let bytes = perq::whole_file(&image.bytes, image.drive, image.s, file)
        .map_err(|refusal| image.asked().file(file).refused(refusal))?;
    let fields = json!({"file": file, "blocks": bytes.len() / DATA, "bytes": hex(&bytes)});
    Ok(Told::done(bytes, fields))
}
