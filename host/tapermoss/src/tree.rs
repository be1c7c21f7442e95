//! `tapermoss tree`: the entries of a partition's directories, depth first from the root.

use crate::directories::{Directories, MOST_ROWS, ROWS};
use crate::fields::{escaped_name, escaped_path};
use crate::hashing::RuleArguments;
use crate::image::{PartitionArguments, Reading};
use crate::names::hex;
use crate::problem::Problem;
use crate::told::Told;
use crate::walked::{Met, Walked};
use clap::Args;
use perq::{Refusal, Tree, What};
use serde_json::{json, Value};

pub const EXAMPLES: &str = "\
A line is an entry: the block of the file that it names, and its name, two blanks further in for each directory that it lies
in; a directory has a '>' behind it. What cannot be printed is escaped, and so is a '>' in a name and a blank at its beginning
or end; JSON has the bytes too. An entry is dangling if it holds no file's address, but nil, or no address of a block of the
partition, or that of a block that is no file or a malformed one; it is said which. `--path` takes the names down to an entry,
joined by '>'; where these would lead elsewhere or nowhere, it is said that there is no path. With --rule an entry counts only
if it stands in a block that the rule selects, as on the PERQ itself, and it is said how many were passed over. Nine levels are
looked into; a directory of a tenth is refused with number 11.

Examples:
  tapermoss tree disk.img
  tapermoss tree disk.img --partition 210 --rule rule.txt
  tapermoss tree disk.img --rows 100 --json";

#[derive(Args)]
pub struct Arguments {
    #[command(flatten)]
    place: PartitionArguments,
    #[command(flatten)]
    rule: RuleArguments,
    /// How many entries to show at most, up to 1048576
    #[arg(long, value_name = "N", default_value_t = ROWS)]
    #[arg(value_parser = clap::value_parser!(u32).range(1..=i64::from(MOST_ROWS)))]
    rows: u32,
}

pub fn run(arguments: &Arguments) -> Result<Told, Problem> {
    let rule = arguments.rule.rule()?;
    let image = Reading::open(&arguments.place)?;
    let directories = Directories { image: &image.bytes, drive: image.drive, s: image.s, rule };
    let root = directories.find(b"")?;
    let (tree, goes_on) = first(&directories, arguments.rows)?;
    let walked =
        Walked::of(&directories, root, tree).map_err(|refusal| directories.refused(refusal))?;
    let text = as_text(root, &walked, goes_on.as_deref());
    Ok(Told::done(text, as_json(root, &walked, goes_on.as_deref())))
}

fn as_text(root: u32, walked: &Walked, goes_on: Option<&str>) -> String {
    let mut text = format!("the root directory is file {root}\n\n   LBN  name\n");
    for met in &walked.entries {
        let row = &met.row;
        let lbn = row.target.map_or("-".to_string(), |lbn| lbn.to_string());
        let (indent, name) = (2 * (row.level as usize - 1), escaped_name(&row.name));
        let mark = if row.what == What::Directory { ">" } else { "" };
        text += &format!("{lbn:>6}  {:indent$}{name}{mark}{}\n", "", remarks(met));
    }
    let passed_over = Walked::remark(walked.passed_over);
    let remarks: Vec<&str> = goes_on.into_iter().chain(passed_over.as_deref()).collect();
    match remarks[..] {
        [] => text,
        _ => format!("{text}\n{}\n", remarks.join("\n")),
    }
}

/// What is said behind an entry: that it is dangling, and that no path leads to it.
fn remarks(met: &Met) -> String {
    let dangling = (met.row.what == What::Dangling).then(|| match met.held {
        Some(held) => format!("dangling: {held}"),
        None => "dangling".to_string(),
    });
    let no_path = met.no_path.map(|why| format!("no path: {}", why.words()));
    let remarks: Vec<String> = dangling.into_iter().chain(no_path).collect();
    match remarks[..] {
        [] => String::new(),
        _ => format!("  ({})", remarks.join("; ")),
    }
}

fn as_json(root: u32, walked: &Walked, goes_on: Option<&str>) -> Value {
    let entry = |met: &Met| {
        let row = &met.row;
        let what = match row.what {
            What::File => "file",
            What::Directory => "directory",
            What::Dangling => "dangling",
        };
        json!({
            "lbn": row.target, "level": row.level, "what": what,
            "held": met.held.map(|held| held.word()),
            "held_block": met.held.and_then(|held| held.block()),
            "name": escaped_name(&row.name), "name_bytes": hex(&row.name),
            "path": met.path().map(escaped_path), "path_bytes": met.path().map(hex),
            "no_path": met.no_path.map(|why| why.words()),
        })
    };
    json!({
        "root": root, "entries": walked.entries.iter().map(entry).collect::<Vec<Value>>(),
        "complete": walked.complete, "goes_on": goes_on, "passed_over": walked.passed_over,
    })
}

/// The first entries of the tree, so many at most, and what is said if it goes on. One more is asked for, which tells whether
/// a larger number would show more.
fn first(directories: &Directories, rows: u32) -> Result<(Tree, Option<String>), Problem> {
    let (tree, more) = match directories.tree(rows + 1) {
        Ok(tree) if tree.rows.len() <= rows as usize => return Ok((tree, None)),
        Ok(mut tree) => {
            tree.rows.truncate(rows as usize);
            let more = match rows {
                MOST_ROWS => ", the largest number that it takes",
                _ => ", and a larger number shows more",
            };
            (Tree { complete: false, ..tree }, more.to_string())
        }
        Err(refusal) => {
            let tree = directories.tree(rows).map_err(|it| refused(directories, rows, it))?;
            (tree, format!("; with more it is {}", directories.refused(refusal).sentence))
        }
    };
    Ok((tree, Some(format!("the tree goes on: this is what --rows {rows} shows{more}"))))
}

/// The refusal of the tree. Of one that is too deep, entries that the walk meets before can be shown.
fn refused(directories: &Directories, rows: u32, refusal: Refusal) -> Problem {
    let mut problem = directories.refused(refusal);
    if let Refusal::TooDeep { .. } = refusal {
        let before = directories.before_the_tenth_level(rows);
        problem.sentence += &format!("; --rows {before} stops before it");
    }
    problem
}
