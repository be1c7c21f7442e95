//! The hash rule of directories, as it is given with --rule and as it is printed: 26 numbers, or a file that holds them.

use crate::fields::escaped;
use crate::image::some;
use crate::names::{self, shown};
use crate::problem::Problem;
use clap::builder::TypedValueParser;
use clap::Args;
use perq::Rule;
use std::os::unix::ffi::OsStrExt;
use std::path::{Path, PathBuf};

/// What the help says of --rule.
pub const HELP: &str = "\
The hash rule of the directories: 26 numbers from 0 to 255, commas or blanks between them, or a file that holds them; - is \
standard input. What has only digits, commas, blanks, signs, dots and brackets is numbers; a file of such a name is given with \
./ before it. In a file a remark is what follows a # on its line [default: not known, every block is looked at]";

/// How many numbers a rule has.
pub const NUMBERS: usize = 26;
/// More bytes than a file with a rule and remarks has: 16 MiB. What `rule` prints has a line for each file it was given.
const MOST_BYTES: usize = 16 << 20;

/// The rule on the command line.
#[derive(Args)]
pub struct RuleArguments {
    #[arg(long, value_name = "RULE", allow_hyphen_values = true, value_parser = value(), help = HELP)]
    rule: Option<PathBuf>,
}

/// A rule on the command line. One that is missing must not be the option that comes next.
pub fn value() -> impl TypedValueParser<Value = PathBuf> {
    names::path().try_map(|path| {
        let row = path.as_os_str().as_bytes();
        match row.starts_with(b"--") && !is_row(row) {
            true => {
                Err("it begins as an option does; a file of such a name is given with ./ before it")
            }
            false => Ok(path),
        }
    })
}

impl RuleArguments {
    pub fn rule(&self) -> Result<Rule, Problem> {
        given(self.rule.as_deref())
    }
}

/// The rule that --rule gives, not known without it. What can be nothing but numbers, right or wrong, is a row of them;
/// anything else is the name of a file.
pub fn given(text: Option<&Path>) -> Result<Rule, Problem> {
    let Some(path) = text else { return Ok(Rule::Unknown) };
    let row = path.as_os_str().as_bytes();
    if is_row(row) {
        return parsed(row, "--rule").map_err(|problem| {
            let hint = "; a file of such a name is given with ./ before it";
            Problem { sentence: problem.sentence + hint, ..problem }
        });
    }
    let bytes = some(path, MOST_BYTES)?;
    if bytes.len() > MOST_BYTES {
        let told = format!("{} has more than {MOST_BYTES} bytes: it is no rule", shown(path));
        return Err(Problem::usage(told));
    }
    let lines: Vec<&[u8]> = bytes.split(|&byte| byte == b'\n').map(without_remark).collect();
    parsed(&lines.join(&b'\n'), &shown(path))
}

/// Whether a text has only what stands in rows of numbers, or in what a person took for one.
fn is_row(text: &[u8]) -> bool {
    let is_part = |byte: &u8| {
        byte.is_ascii_digit() || byte.is_ascii_whitespace() || b",+-.()[]{}".contains(byte)
    };
    text.iter().all(is_part)
}

/// A line of a file as far as a #.
fn without_remark(line: &[u8]) -> &[u8] {
    line.split(|&byte| byte == b'#').next().unwrap_or_default()
}

/// The numbers as --rule takes them.
pub fn written(weights: &[u8; NUMBERS]) -> String {
    weights.map(|weight| weight.to_string()).join(",")
}

/// What stands between commas, blanks and ends of lines.
fn words(row: &[u8]) -> impl Iterator<Item = &[u8]> {
    let is_between = |byte: &u8| *byte == b',' || byte.is_ascii_whitespace();
    row.split(is_between).filter(|word| !word.is_empty())
}

fn is_number(word: &[u8]) -> bool {
    word.iter().all(u8::is_ascii_digit)
}

/// The rule in a row of numbers; `place` is where they stand.
fn parsed(row: &[u8], place: &str) -> Result<Rule, Problem> {
    let numbers = words(row).map(|word| number(word, place)).collect::<Result<Vec<u8>, _>>()?;
    let found = numbers.len();
    numbers.try_into().map(Rule::Weights).map_err(|_| {
        Problem::usage(format!("a rule has {NUMBERS} numbers, and {place} has {found}"))
    })
}

fn number(word: &[u8], place: &str) -> Result<u8, Problem> {
    let parsed = std::str::from_utf8(word).ok().filter(|_| is_number(word));
    parsed.and_then(|text| text.parse().ok()).ok_or_else(|| {
        let wrong = if is_number(word) { "is above 255" } else { "is no number" };
        let word = escaped(word);
        Problem::usage(format!("a rule's numbers are 0 to 255, and '{word}' in {place} {wrong}"))
    })
}
