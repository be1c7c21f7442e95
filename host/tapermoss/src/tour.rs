//! `tapermoss tour`: the worked examples M1 to M8, converted by the library and held to the values worked out by hand.

use crate::address::{names, or_refusal};
use crate::outcome::Outcome;
use crate::problem::Problem;
use crate::told::Told;
use perq::{Drive, Refusal, Words};
use serde_json::json;

/// One worked example: a block, and what is worked out for it.
struct Example {
    name: &'static str,
    drive: Drive,
    lbn: u32,
    pda: Option<(u16, u16)>,
    lda: Option<(u16, u16)>,
    fileid: Option<Result<u32, Refusal>>,
}

const NOTHING: Example =
    Example { name: "", drive: Drive::Shugart12, lbn: 0, pda: None, lda: None, fileid: None };

fn examples() -> [Example; 8] {
    [
        Example {
            name: "M1",
            drive: Drive::Shugart24,
            lbn: 210,
            pda: Some((0o400, 0)),
            lda: Some((0o151000, 0o140000)),
            ..NOTHING
        },
        Example { name: "M2", lbn: 210, pda: Some((0o1000, 0)), ..NOTHING },
        Example { name: "M3", lbn: 24_209, pda: Some((0o144575, 0)), ..NOTHING },
        Example {
            name: "M4",
            drive: Drive::Shugart24,
            lbn: 48_449,
            pda: Some((0o144775, 0)),
            ..NOTHING
        },
        Example {
            name: "M5",
            drive: Drive::Micropolis35,
            lbn: 69_551,
            pda: Some((0o2027, 0o1103)),
            lda: Some((0o127400, 0o140417)),
            ..NOTHING
        },
        Example { name: "M6", drive: Drive::Floppy, lbn: 431, pda: Some((0o27, 0o114)), ..NOTHING },
        Example { name: "M7", drive: Drive::Floppy, lbn: 431, fileid: Some(Ok(57_775)), ..NOTHING },
        Example {
            name: "M8",
            drive: Drive::Micropolis35,
            lbn: 57_344,
            fileid: Some(Err(Refusal::Address)),
            ..NOTHING
        },
    ]
}

/// An example's row, and whether it is as worked out.
fn row(example: &Example) -> Result<(String, bool), Refusal> {
    let Example { name, drive, lbn, pda, lda, fileid } = *example;
    let found = names(drive, lbn)?;
    let agrees = |words: Words, worked: Option<(u16, u16)>| {
        worked.is_none_or(|w| w == (words.low(), words.high()))
    };
    let fine = agrees(found.pda, pda)
        && agrees(found.lda, lda)
        && fileid.is_none_or(|worked| worked == found.fileid)
        && perq::pda_to_lbn(drive, found.pda.0) == Ok(lbn)
        && perq::lda_to_lbn(drive, found.lda.0) == Ok(lbn);
    let verdict = if fine { "as worked out" } else { "NOT AS WORKED OUT" };
    let row = format!(
        "{name:<4} {:<21} {lbn:>6}   {}   {}   {:>12}   {verdict}\n",
        drive.to_string(),
        found.pda,
        found.lda,
        or_refusal(&found.fileid),
    );
    Ok((row, fine))
}

pub fn run() -> Result<Told, Problem> {
    let mut text = "The worked examples, converted by the proved library; addresses in octal, low word first.\n\n".to_string();
    text += &format!(
        "{:<4} {:<21} {:>6}   {:<13}   {:<13}   {:>12}\n",
        "", "drive", "LBN", "PDA", "LDA", "FileID"
    );
    let (mut wrong, mut names) = (Vec::new(), Vec::new());
    for example in &examples() {
        let (row, fine) = row(example)?;
        text += &row;
        names.push(example.name);
        wrong.extend((!fine).then_some(example.name));
    }
    let told = Told::done(text, json!({"examples": names, "wrong": wrong}));
    if wrong.is_empty() {
        return Ok(told);
    }
    let sentence = format!("{} of the examples are not as worked out", wrong.len());
    let problem = Problem::new(Outcome::Refused, sentence);
    Ok(Told { out: told.out, fields: told.fields, ..Told::from(problem) })
}
