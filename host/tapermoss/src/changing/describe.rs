//! `tapermoss describe`: a file's name, or its whole description.

use super::{Changing, FileArguments};
use crate::fields::{NAME_AT, NAME_ROOM};
use crate::image::some;
use crate::names;
use crate::problem::Problem;
use crate::told::Told;
use clap::Args;
use perq::{raw, NameFault, Refusal, DESCRIPTION};
use serde_json::json;
use std::path::PathBuf;

pub const EXAMPLES: &str = "\
A name is 1 to 80 characters. It has no control character, no <, / or :, no >.> or >..> in it, and no > at its end; one that
has is refused with number 12, and it is said where. With --name the rest of the description stays as it is; a whole
description is 104 bytes, and its name is held to the same rule. Directories stay as they are: `tree` shows the file by the
name that its entry has. The new image is IMAGE.new unless --output or --in-place is given.

Examples:
  tapermoss describe disk.img --file 211 --name 'letters>first.text'
  tapermoss describe disk.img --path 'letters>first.text' --name 'letters>first.text'
  tapermoss describe disk.img --file 211 --bytes description.bin --output work.img";

#[derive(Args)]
pub struct Arguments {
    #[command(flatten)]
    file: FileArguments,
    /// The file's new name, in ASCII
    #[arg(long, value_parser = ascii, required_unless_present = "bytes", conflicts_with = "bytes")]
    name: Option<String>,
    /// Where the new description is; - is standard input
    #[arg(long, value_name = "PATH", value_parser = names::path())]
    bytes: Option<PathBuf>,
}

/// What is no ASCII would be stored in UTF-8, which is younger than the PERQ. What else a name may be the library says.
fn ascii(text: &str) -> Result<String, String> {
    match text.is_ascii() {
        true => Ok(text.to_string()),
        false => {
            Err("a name is given in ASCII; one with other bytes is set with --bytes".to_string())
        }
    }
}

pub fn run(arguments: &Arguments) -> Result<Told, Problem> {
    let given = match &arguments.bytes {
        Some(path) => Some(some(path, DESCRIPTION)?),
        None => None,
    };
    let name = arguments.name.as_deref();
    arguments.file.carry_out(|image, file| {
        let new = given.unwrap_or_else(|| renamed(image, file, name.unwrap_or_default()));
        let made = describe(image, file, &new)
            .map_err(|refusal| refused(image, file, &new, name, refusal))?;
        let text = format!("file {file} described: {}", image.stores(made));
        Ok((text, json!({"file": file, "stores": made})))
    })
}

/// The file's description with another name. Whether it is a file is for `describe` to say, and whether the name is too long:
/// where a byte cannot hold the length, the largest stands there.
fn renamed(image: &Changing, f: u32, name: &str) -> Vec<u8> {
    let old = perq::description(&image.bytes, image.drive, image.s, f);
    let mut new = old.unwrap_or([0; DESCRIPTION]);
    let fits = name.len().min(NAME_ROOM);
    new[NAME_AT..].fill(0);
    new[NAME_AT] = u8::try_from(name.len()).unwrap_or(u8::MAX);
    new[NAME_AT + 1..][..fits].copy_from_slice(&name.as_bytes()[..fits]);
    new.to_vec()
}

/// Sets the description; one of a wrong length is for the library to refuse, in its turn.
fn describe(image: &mut Changing, f: u32, new: &[u8]) -> Result<u32, Refusal> {
    if let Ok(whole) = new.try_into() {
        return perq::describe(&mut image.bytes, image.drive, image.s, f, whole, image.left);
    }
    let answer = raw::describe(&mut image.bytes, image.drive.number(), image.s, f, new, image.left);
    Err(Refusal::from_number(answer.number, answer.block).unwrap_or(Refusal::Buffer))
}

/// The refusal, in words about what was given: so many bytes, or a name, the length of which may be more than a byte holds.
fn refused(image: &Changing, f: u32, new: &[u8], name: Option<&str>, refusal: Refusal) -> Problem {
    match (refusal, name) {
        (Refusal::Buffer, _) => {
            let given = match new.len() {
                less if less < DESCRIPTION => less.to_string(),
                _ => "more".to_string(),
            };
            let told = format!("a description has {DESCRIPTION} bytes, not {given}");
            Problem::refused(refusal, &told)
        }
        (Refusal::Name(NameFault::Length { .. }), Some(name)) => {
            Refusal::Name(NameFault::Length { length: name.len() }).into()
        }
        _ => image.asked().file(f).refused(refusal),
    }
}
