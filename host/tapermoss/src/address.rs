//! `tapermoss address`: one block, named in each of the four ways.

use crate::drive;
use crate::names::shown;
use crate::problem::Problem;
use crate::told::Told;
use clap::{Args, ValueEnum};
use perq::{Drive, Refusal, Words};
use serde_json::json;
use std::fmt::Display;
use std::num::{IntErrorKind, ParseIntError};
use std::path::Path;

pub const EXAMPLES: &str = "\
Examples:
  tapermoss address --drive 1 lbn 210
  tapermoss address --drive 1 pda 000400 000000
  tapermoss address --drive micropolis35 lda 127400 140417
  tapermoss address --drive floppy fileid 57775";

#[derive(Args)]
pub struct Arguments {
    /// The drive: 0 or shugart12, 1 or shugart24, 2 or micropolis35, 3 or floppy
    #[arg(long, value_parser = drive::parse)]
    drive: Drive,
    /// How the block is named
    kind: Kind,
    /// An LBN or a FileID in decimal; the low word of an address in octal
    #[arg(value_name = "NUMBER")]
    first: String,
    /// The high word of an address in octal
    #[arg(value_name = "HIGH")]
    second: Option<String>,
}

#[derive(Clone, Copy, ValueEnum)]
enum Kind {
    /// A logical block number
    Lbn,
    /// A physical disk address
    Pda,
    /// A logical disk address, whose reserved bits (0-7 of the low word) are ignored
    Lda,
    /// A FileID
    Fileid,
}

/// A block with its other names; a FileID is refused for blocks that have none.
pub struct Names {
    pub lbn: u32,
    pub pda: Words,
    pub lda: Words,
    pub fileid: Result<u32, Refusal>,
}

pub fn names(drive: Drive, lbn: u32) -> Result<Names, Refusal> {
    Ok(Names {
        lbn,
        pda: Words(perq::lbn_to_pda(drive, lbn)?),
        lda: Words(perq::lbn_to_lda(drive, lbn)?),
        fileid: perq::lbn_to_fileid(drive, lbn),
    })
}

/// A value, or the number of the refusal.
pub fn or_refusal<T: Display>(value: &Result<T, Refusal>) -> String {
    match value {
        Ok(value) => value.to_string(),
        Err(refusal) => format!("refused ({})", refusal.number()),
    }
}

/// The number that the arguments give: an address is low + 65,536 * high.
fn given(arguments: &Arguments) -> Result<u32, Problem> {
    let Arguments { kind, ref first, ref second, .. } = *arguments;
    match (kind, second) {
        (Kind::Lbn | Kind::Fileid, None) => decimal(first),
        (Kind::Pda | Kind::Lda, Some(high)) => octal(first, high),
        (Kind::Lbn | Kind::Fileid, Some(_)) => {
            Err(Problem::usage("an LBN or a FileID is one number"))
        }
        (Kind::Pda | Kind::Lda, None) => {
            Err(Problem::usage("an address is two words: low and high"))
        }
    }
}

/// The block that a number names.
fn block(drive: Drive, kind: Kind, number: u32) -> Result<u32, Refusal> {
    match kind {
        Kind::Lbn => Ok(number),
        Kind::Pda => perq::pda_to_lbn(drive, number),
        Kind::Lda => perq::lda_to_lbn(drive, number),
        Kind::Fileid => perq::fileid_to_lbn(drive, number),
    }
}

/// What is said of an LDA with reserved bits set: the one that is shown has none.
fn remark(kind: Kind, number: u32, names: &Names) -> Option<String> {
    let has_bits = matches!(kind, Kind::Lda) && number != names.lda.0;
    has_bits.then(|| {
        format!(
            "the LDA that was given, {} O, has reserved bits set (0-7 of its low word), which are ignored",
            Words(number)
        )
    })
}

fn decimal(text: &str) -> Result<u32, Problem> {
    text.parse().map_err(|error| no_number(text, &error, "a decimal number from 0 up", "32 bits"))
}

fn octal(low: &str, high: &str) -> Result<u32, Problem> {
    let word = |text: &str| {
        u16::from_str_radix(text, 8)
            .map_err(|error| no_number(text, &error, "a word in octal", "16 bits"))
    };
    Ok(u32::from(word(low)?) + 65_536 * u32::from(word(high)?))
}

/// Why a text is not the number that it should be.
fn no_number(text: &str, error: &ParseIntError, sort: &str, room: &str) -> Problem {
    let text = shown(Path::new(text));
    Problem::usage(match error.kind() {
        IntErrorKind::PosOverflow => format!("{text} is too large: it has more than {room}"),
        _ => format!("'{text}' is not {sort}"),
    })
}

pub fn run(arguments: &Arguments) -> Result<Told, Problem> {
    let Arguments { drive, kind, .. } = *arguments;
    let number = given(arguments)?;
    let names = names(drive, block(drive, kind, number)?)?;
    let remark = remark(kind, number, &names);
    let rows = [
        format!("drive   {} ({drive})\n", drive.number()),
        format!("LBN     {}\n", names.lbn),
        format!("PDA     {} O\n", names.pda),
        format!("LDA     {} O\n", names.lda),
        format!("FileID  {}\n", or_refusal(&names.fileid)),
        remark.as_ref().map_or(String::new(), |remark| format!("{remark}\n")),
    ];
    let fields = json!({
        "drive": drive.number(), "lbn": names.lbn, "pda": names.pda.0, "lda": names.lda.0,
        "fileid": names.fileid.ok(), "remark": remark,
    });
    Ok(Told::done(rows.concat(), fields))
}
