//! The file that a command is about: named by its block, or by its path from the root directory.

use crate::directories::Directories;
use crate::fields::unescaped;
use crate::hashing;
use crate::names::shown;
use crate::problem::Problem;
use clap::{ArgGroup, Args};
use perq::{Drive, Rule, JOINT};
use std::ffi::OsString;
use std::os::unix::ffi::OsStrExt;
use std::path::{Path, PathBuf};

/// The file on the command line, and the rule by which its path is looked up.
#[derive(Args)]
#[command(group(ArgGroup::new("named").required(true).multiple(false).args(["file", "path"])))]
pub struct NamedFile {
    /// The file's block, as `files` lists it
    #[arg(long, value_name = "LBN")]
    file: Option<u32>,
    /// The file's path: names from the root directory down, joined by '>', as `tree` prints them; an empty one is the root,
    /// in commands that change nothing
    #[arg(long, value_name = "PATH", allow_hyphen_values = true)]
    path: Option<OsString>,
    #[arg(long, value_name = "RULE", allow_hyphen_values = true, value_parser = hashing::value(), help = hashing::HELP)]
    #[arg(conflicts_with = "file")]
    rule: Option<PathBuf>,
}

/// What the command line asks for.
pub enum Wanted {
    Block(u32),
    Path { path: Vec<u8>, rule: Rule },
}

impl NamedFile {
    pub fn wanted(&self) -> Result<Wanted, Problem> {
        match (self.file, &self.path) {
            (Some(file), _) => Ok(Wanted::Block(file)),
            (None, Some(path)) => {
                let rule = hashing::given(self.rule.as_deref())?;
                Ok(Wanted::Path { path: path_bytes(path)?, rule })
            }
            (None, None) => Err(Problem::usage("name the file with --file or --path")),
        }
    }

    /// Refuses the empty path, which a script may give by mistake, where the root would be changed.
    pub fn must_not_be_empty(&self) -> Result<(), Problem> {
        match &self.path {
            Some(path) if path.is_empty() => Err(Problem::usage(
                "the empty path is the root directory; to change that, name it with --file LBN",
            )),
            _ => Ok(()),
        }
    }

    /// The file's block in an image.
    pub fn find(&self, image: &[u8], drive: Drive, s: u32) -> Result<u32, Problem> {
        match self.wanted()? {
            Wanted::Block(file) => Ok(file),
            Wanted::Path { path, rule } => Directories { image, drive, s, rule }.find(&path),
        }
    }
}

/// The bytes of a path that is written as `tree` prints it. A '>' that is escaped stands in a name: it joins nothing.
fn path_bytes(path: &OsString) -> Result<Vec<u8>, Problem> {
    let given = path.as_bytes().split(|&byte| byte == JOINT);
    let names = given.map(unescaped).collect::<Option<Vec<Vec<u8>>>>().ok_or_else(|| {
        Problem::usage(format!(
            "in a path a backslash is written \\\\ and a byte \\x and two digits, as `tree` prints them; '{}' has it otherwise",
            shown(Path::new(path))
        ))
    })?;
    if names.iter().any(|name| name.contains(&JOINT)) {
        return Err(Problem::usage(
            "no path leads to an entry with a '>' in its name, which is what \\x3e stands for; name the file with --file LBN",
        ));
    }
    Ok(names.join(&JOINT))
}
