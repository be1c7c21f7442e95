//! The files of tests/worked, read: cases of an image and a run of calls with their answers. The README beside them has the
//! format.

use crate::call::{Call, Group, Name};
use crate::worked_laying::Laying;
use perq::RECORD;
use reference::tree::ROW;
use reference::Answer;

/// A call, and what must come of it.
#[derive(Clone, Debug)]
pub struct Expected {
    pub call: Call,
    pub answer: Answer,
    pub image_crc: u32,
    /// That of the caller's buffer, or rows, in a read, a description or a tree.
    pub buffer_crc: Option<u32>,
    /// The rows that a tree must fill, one after the other.
    pub rows: Vec<u8>,
    /// Where it stands in the file.
    pub line: usize,
}

/// What is done to a case's image.
#[derive(Clone, Debug)]
pub enum Step {
    /// These bytes go into the image from this byte on.
    Put(usize, Vec<u8>),
    /// A partition is laid by rule.
    Lay(Laying),
    Call(Box<Expected>),
}

/// An image of zeros, and what is done to it one after the other.
#[derive(Clone, Debug)]
pub struct Case {
    pub name: String,
    pub drive: u32,
    /// The partition that is meant.
    pub s: u32,
    pub length: usize,
    pub steps: Vec<Step>,
}

/// The cases of a file, at least one, or what is wrong with it. A case lasts from its `case` to its `end`; between two of them
/// only remarks stand.
pub fn parse(text: &str) -> Result<Vec<Case>, String> {
    let (mut cases, mut open): (Vec<Case>, Option<Case>) = (Vec::new(), None);
    for (number, line) in text.lines().enumerate().map(|(i, line)| (i + 1, line)) {
        let words: Vec<&str> = line.split_whitespace().collect();
        let understood = match words.first().copied() {
            None => Some(()),
            Some(word) if word.starts_with('#') => Some(()),
            Some("case") if open.is_none() => start(&words).map(|case| open = Some(case)),
            Some("end") => open.take().map(|case| cases.push(case)),
            Some(_) => open.as_mut().and_then(|case| step(case, &words, number)),
        };
        understood.ok_or_else(|| format!("line {number} is not understood: {:.60}", line))?;
    }
    match open {
        Some(case) => Err(format!("case {} has no end", case.name)),
        None if cases.is_empty() => Err("there is no case in it".to_string()),
        None => Ok(cases),
    }
}

/// `case K drive D records N s S`
fn start(words: &[&str]) -> Option<Case> {
    let ["case", name, "drive", drive, "records", records, "s", s] = words else { return None };
    let length = RECORD * records.parse::<usize>().ok()?;
    let (name, drive, s) = (name.to_string(), drive.parse().ok()?, s.parse().ok()?);
    Some(Case { name, drive, s, length, steps: Vec::new() })
}

/// A line of a case; a row belongs to the tree before it, a file or a chain to the partition before it.
fn step(case: &mut Case, words: &[&str], line: usize) -> Option<()> {
    match words[0] {
        "put" => {
            let (at, bytes) = put(words)?;
            if at.checked_add(bytes.len())? > case.length {
                return None;
            }
            case.steps.push(Step::Put(at, bytes));
        }
        "partition" if case.steps.is_empty() => {
            let records = (case.length / RECORD) as u32;
            case.steps.push(Step::Lay(Laying::partition(words, case.drive, records, case.s)?));
        }
        "file" | "chain" => match case.steps.last_mut()? {
            Step::Lay(laying) if words[0] == "file" => laying.file(words)?,
            Step::Lay(laying) => laying.chain(words)?,
            _ => return None,
        },
        "call" => case.steps.push(Step::Call(Box::new(expected(words, line)?))),
        "row" => match case.steps.last_mut()? {
            Step::Call(expected) if expected.call.name == Name::Tree => {
                expected.rows.extend(row(words)?);
            }
            _ => return None,
        },
        _ => return None,
    }
    Some(())
}

/// `put AT HEX`
fn put(words: &[&str]) -> Option<(usize, Vec<u8>)> {
    Some((words.get(1)?.parse().ok()?, unhex(words.get(2)?)?))
}

/// `row LBN LEVEL WHAT NAME`
fn row(words: &[&str]) -> Option<[u8; ROW]> {
    let lbn: u32 = words.get(1)?.parse().ok()?;
    let (level, what) = (words.get(2)?.parse().ok()?, words.get(3)?.parse().ok()?);
    let name = unhex(words.get(4)?)?;
    let mut row = [0; ROW];
    row[..4].copy_from_slice(&lbn.to_le_bytes());
    row[4..7].copy_from_slice(&[level, what, u8::try_from(name.len()).ok()?]);
    row[7..].get_mut(..name.len())?.copy_from_slice(&name);
    Some(row)
}

/// `call NAME ARGS -> O NUM BLK MADE A B C image CRC`, and `buffer CRC` in a read, a description or a tree
fn expected(words: &[&str], line: usize) -> Option<Expected> {
    let arrow = words.iter().position(|&word| word == "->")?;
    let call = call(words.get(1)?, words.get(2..arrow)?)?;
    let field = |i: usize| words.get(arrow + 1 + i)?.parse::<u32>().ok();
    let answer = Answer {
        outcome: field(0)?,
        number: field(1)?,
        block: field(2)?,
        made: field(3)?,
        a: field(4)?,
        b: field(5)?,
        c: field(6)?,
    };
    let summed = matches!(call.name, Name::Read | Name::Description | Name::Tree);
    let (image_crc, buffer_crc) = match (summed, words.get(arrow + 8..)?) {
        (false, ["image", image]) => (crc(image)?, None),
        (true, ["image", image, "buffer", buffer]) => (crc(image)?, Some(crc(buffer)?)),
        _ => return None,
    };
    Some(Expected { call, answer, image_crc, buffer_crc, rows: Vec::new(), line })
}

/// Eight hex digits.
fn crc(word: &str) -> Option<u32> {
    let bytes: [u8; 4] = unhex(word)?.try_into().ok()?;
    Some(u32::from_be_bytes(bytes))
}

/// The call of this name, and how many arguments it has after the image; a conversion takes no image.
fn named(name: &str) -> Option<(Name, usize)> {
    Some(match name {
        "lbn_to_pda" => (Name::LbnToPda, 2),
        "pda_to_lbn" => (Name::PdaToLbn, 2),
        "lbn_to_lda" => (Name::LbnToLda, 2),
        "lda_to_lbn" => (Name::LdaToLbn, 2),
        "lbn_to_fileid" => (Name::LbnToFileid, 2),
        "fileid_to_lbn" => (Name::FileidToLbn, 2),
        "check" => (Name::Check, 2),
        "next_file" => (Name::NextFile, 3),
        "read" => (Name::Read, 5),
        "show" => (Name::Show, 4),
        "description" => (Name::Description, 4),
        "extract" => (Name::Extract, 4),
        "look_up" => (Name::LookUp, 4),
        "tree" => (Name::Tree, 4),
        "create" => (Name::Create, 4),
        "write" => (Name::Write, 6),
        "describe" => (Name::Describe, 5),
        "destroy" => (Name::Destroy, 4),
        "repair" => (Name::Repair, 3),
        _ => return None,
    })
}

/// The call of this name with the arguments after the image, in the order of perq.h.
fn call(name: &str, words: &[&str]) -> Option<Call> {
    let (name, count) = named(name)?;
    if words.len() != count {
        return None;
    }
    let number = |i: usize| words[i].parse::<u32>().ok();
    let bytes = |i: usize| bytes(words[i]);
    if name.group() == Group::Conversions {
        return Some(Call::conversion(name, number(0)?, number(1)?));
    }
    let call = Call::new(name, number(0)?, number(1)?);
    Some(match name {
        Name::NextFile => call.with_number(number(2)?),
        Name::Read => call.with_file(number(2)?).with_block(number(3)?).with_buffer(&bytes(4)?),
        Name::Show => call.with_file(number(2)?).with_block(number(3)?),
        Name::Description | Name::Extract => call.with_file(number(2)?).with_buffer(&bytes(3)?),
        Name::LookUp => call.with_rule(&bytes(2)?).with_path(&bytes(3)?),
        Name::Tree => call.with_rule(&bytes(2)?).with_buffer(&bytes(3)?),
        Name::Create => call.with_number(number(2)?).with_limit(number(3)?),
        Name::Write => {
            let call = call.with_file(number(2)?).with_block(number(3)?);
            call.with_buffer(&bytes(4)?).with_limit(number(5)?)
        }
        Name::Describe => call.with_file(number(2)?).with_buffer(&bytes(3)?).with_limit(number(4)?),
        Name::Destroy => call.with_file(number(2)?).with_limit(number(3)?),
        Name::Repair => call.with_limit(number(2)?),
        _ => call,
    })
}

/// `hex:..`, or `pattern:LEN:K`: LEN bytes, of which byte i is K + 7 i + i div 128.
fn bytes(word: &str) -> Option<Vec<u8>> {
    if let Some(hex) = word.strip_prefix("hex:") {
        return unhex(hex);
    }
    let (length, k) = word.strip_prefix("pattern:")?.split_once(':')?;
    let (length, k): (usize, usize) = (length.parse().ok()?, k.parse().ok()?);
    Some((0..length).map(|i| (k + 7 * i + i / 128) as u8).collect())
}

fn unhex(text: &str) -> Option<Vec<u8>> {
    if text.len() % 2 != 0 || !text.bytes().all(|digit| digit.is_ascii_hexdigit()) {
        return None;
    }
    (0..text.len()).step_by(2).map(|i| u8::from_str_radix(&text[i..i + 2], 16).ok()).collect()
}
