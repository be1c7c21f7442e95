//! `tapermoss destroy`: a file's blocks go to the free chain.

use super::FileArguments;
use crate::problem::Problem;
use crate::told::Told;
use clap::Args;
use serde_json::json;

pub const EXAMPLES: &str = "\
Directories stay as they are: an entry that names the file is left, and `tree` then shows it as dangling. The new image is
IMAGE.new unless --output or --in-place is given.

Examples:
  tapermoss destroy disk.img --file 211
  tapermoss destroy disk.img --path 'letters>first.text'
  tapermoss destroy work.img --file 211 --in-place";

#[derive(Args)]
pub struct Arguments {
    #[command(flatten)]
    file: FileArguments,
}

pub fn run(arguments: &Arguments) -> Result<Told, Problem> {
    arguments.file.carry_out(|image, file| {
        let made = perq::destroy(&mut image.bytes, image.drive, image.s, file, image.left)
            .map_err(|refusal| image.asked().file(file).refused(refusal))?;
        let text = format!("file {file} destroyed: {}", image.stores(made));
        Ok((text, json!({"file": file, "stores": made})))
    })
}
