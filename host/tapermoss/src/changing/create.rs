//! `tapermoss create`: a new empty file.

use super::ChangeArguments;
use crate::problem::Problem;
use crate::told::Told;
use clap::Args;
use serde_json::json;

pub const EXAMPLES: &str = "\
The new image is IMAGE.new unless --output or --in-place is given. The file has no blocks and no name yet; `write` and
`describe` give it some. Directories stay as they are: no entry names the file, unless one was dangling that names its block.

Examples:
  tapermoss create disk.img
  tapermoss create disk.img --kind 2 --output work.img
  tapermoss create work.img --in-place";

#[derive(Args)]
pub struct Arguments {
    #[command(flatten)]
    change: ChangeArguments,
    /// The file's kind, any number of 16 bits
    #[arg(long, default_value_t = 0)]
    kind: u16,
}

pub fn run(arguments: &Arguments) -> Result<Told, Problem> {
    arguments.change.carry_out(|image| {
        let created =
            perq::create(&mut image.bytes, image.drive, image.s, arguments.kind, image.left)
                .map_err(|refusal| image.asked().refused(refusal))?;
        let text = format!("file {} created: {}", created.file, image.stores(created.made));
        Ok((text, json!({"file": created.file, "stores": created.made})))
    })
}
