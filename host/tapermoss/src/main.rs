//! tapermoss: the command-line tool. What a command has to say is a `Told`: a text or, with --json, one object, and the
//! exit status.

mod address;
mod asked;
mod batch;
mod cat;
mod changing;
mod check;
mod directories;
mod drive;
mod entries;
mod fields;
mod files;
mod hashing;
mod held;
mod image;
mod index;
mod keep;
mod layout;
mod learn;
mod lock;
mod map;
mod mend;
mod named;
mod names;
mod outcome;
mod output;
mod pair;
mod part;
mod partitions;
mod paths;
mod problem;
mod repairing;
mod rows;
mod rule;
mod show;
mod told;
mod tour;
mod tree;
mod volume;
mod walked;

use changing::{create, describe, destroy, fresh, repair, write};
use clap::{Parser, Subcommand};
use problem::Problem;
use serde_json::json;
use std::ffi::OsString;
use std::path::Path;
use std::process::ExitCode;
use told::Told;

#[derive(Parser)]
#[command(version, about = "Reads, edits and repairs PERQ disk images", after_help = outcome::STATUSES)]
struct Arguments {
    #[command(subcommand)]
    command: Command,
    /// Print one JSON object, whatever comes of it
    #[arg(long, global = true)]
    json: bool,
}

#[derive(Subcommand)]
enum Command {
    /// List the good partitions of an image, and which of them the device's own table lists
    #[command(after_help = partitions::EXAMPLES)]
    Partitions(partitions::Arguments),
    /// Say whether the partitions of an image are sound, and what they hold
    #[command(after_help = check::EXAMPLES)]
    Check(check::Arguments),
    /// List the files of a partition
    #[command(after_help = files::EXAMPLES)]
    Files(files::Arguments),
    /// List the entries of a partition's directories as a tree
    #[command(after_help = tree::EXAMPLES)]
    Tree(tree::Arguments),
    /// Learn the hash rule of directories from their entries
    #[command(after_help = rule::EXAMPLES)]
    Rule(rule::Arguments),
    /// Print a whole file
    #[command(after_help = cat::EXAMPLES)]
    Cat(cat::Arguments),
    /// Show one block of a file, from an image or from a pair
    #[command(after_help = show::EXAMPLES)]
    Show(show::Arguments),
    /// Draw a partition as SVG and PNG
    #[command(after_help = map::EXAMPLES)]
    Map(map::Arguments),
    /// Repair the partitions of an image, into a new image beside the old one
    #[command(after_help = repair::EXAMPLES)]
    Repair(repair::Arguments),
    /// Go over a folder of images: leave the sound ones, repair the others, report the rest
    #[command(after_help = batch::EXAMPLES)]
    Batch(batch::Arguments),
    /// Make an empty file
    #[command(after_help = create::EXAMPLES)]
    Create(create::Arguments),
    /// Write bytes into a file
    #[command(after_help = write::EXAMPLES)]
    Write(write::Arguments),
    /// Set a file's name or its whole description
    #[command(after_help = describe::EXAMPLES)]
    Describe(describe::Arguments),
    /// Give a file's blocks to the free chain
    #[command(after_help = destroy::EXAMPLES)]
    Destroy(destroy::Arguments),
    /// Make a new image with one fresh partition
    #[command(after_help = fresh::EXAMPLES)]
    Fresh(fresh::Arguments),
    /// Name a block in every way: LBN, PDA, LDA and FileID
    #[command(after_help = address::EXAMPLES)]
    Address(address::Arguments),
    /// Convert the addresses of the worked examples and print them as a table
    #[command(after_help = "Example:\n  tapermoss tour")]
    Tour,
}

fn run(command: &Command) -> Result<Told, Problem> {
    match command {
        Command::Partitions(arguments) => partitions::run(arguments),
        Command::Check(arguments) => check::run(arguments),
        Command::Files(arguments) => files::run(arguments),
        Command::Tree(arguments) => tree::run(arguments),
        Command::Rule(arguments) => rule::run(arguments),
        Command::Cat(arguments) => cat::run(arguments),
        Command::Show(arguments) => show::run(arguments),
        Command::Map(arguments) => map::run(arguments),
        Command::Repair(arguments) => repair::run(arguments),
        Command::Batch(arguments) => batch::run(arguments),
        Command::Create(arguments) => create::run(arguments),
        Command::Write(arguments) => write::run(arguments),
        Command::Describe(arguments) => describe::run(arguments),
        Command::Destroy(arguments) => destroy::run(arguments),
        Command::Fresh(arguments) => fresh::run(arguments),
        Command::Address(arguments) => address::run(arguments),
        Command::Tour => tour::run(),
    }
}

/// What is said of a command line that is not one of a command: the help that was asked for, or what is wrong with it. It
/// repeats words of that line, and a name among them may hold anything.
fn not_a_command(error: &clap::Error, words: &[OsString]) -> Told {
    let text = words.iter().fold(error.to_string(), |text, word| {
        let (raw, shown) = (word.to_string_lossy(), names::shown(Path::new(word)));
        let is_plain = raw.is_empty() || raw == shown;
        if is_plain {
            text
        } else {
            text.replace(&*raw, &shown)
        }
    });
    if !error.use_stderr() {
        return Told::done(text.clone(), json!({"text": text}));
    }
    // What is wrong stands before the first empty line, what would be right after it.
    let wrong: Vec<&str> =
        text.lines().map(str::trim).take_while(|line| !line.is_empty()).collect();
    let wrong = wrong.join(" ");
    let problem = Problem::usage(wrong.strip_prefix("error: ").unwrap_or("no command is named"));
    Told { aside: vec![text.trim_end().to_string()], ..Told::from(problem) }
}

fn main() -> ExitCode {
    match Arguments::try_parse() {
        Ok(arguments) => run(&arguments.command).unwrap_or_else(Told::from).say(arguments.json),
        Err(error) => {
            let words: Vec<OsString> = std::env::args_os().skip(1).collect();
            let as_json =
                words.iter().take_while(|word| *word != "--").any(|word| word == "--json");
            not_a_command(&error, &words).say(as_json)
        }
    }
}
