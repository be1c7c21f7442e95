//! Temporary files, in the folder of the file that they are to become. One that is being written is locked, so that it can be
//! told from one that a killed run has left behind.

use crate::keep::{is_taken, Existing};
use crate::lock::try_lock;
use crate::names::shown;
use std::ffi::{OsStr, OsString};
use std::fs::{self, File, OpenOptions};
use std::io::{self, ErrorKind};
use std::os::unix::ffi::OsStrExt;
use std::os::unix::fs::OpenOptionsExt;
use std::path::{Path, PathBuf};
use std::process;

/// The folder of a path.
pub fn folder(path: &Path) -> &Path {
    match path.parent() {
        Some(folder) if folder != Path::new("") => folder,
        _ => Path::new("."),
    }
}

/// What the names of temporary files for a path begin with. A name has at most 255 bytes, and the ending needs some.
fn beginning(path: &Path) -> io::Result<OsString> {
    const MOST: usize = 200;
    let name = path.file_name().ok_or(ErrorKind::InvalidInput)?.as_bytes();
    let mut beginning = OsString::from(".");
    beginning.push(OsStr::from_bytes(&name[..name.len().min(MOST)]));
    beginning.push(".");
    Ok(beginning)
}

/// The temporary files that killed runs have left behind for this name, a sentence each.
pub fn left_behind(path: &Path) -> Vec<String> {
    let (Ok(beginning), Ok(entries)) = (beginning(path), fs::read_dir(folder(path))) else {
        return Vec::new();
    };
    let is_left = |name: &OsStr| {
        let rest = name.as_bytes().strip_prefix(beginning.as_bytes());
        let process = rest.and_then(|rest| process_of(rest.strip_suffix(b".part")?));
        process.is_some_and(|process| !is_in_use(&folder(path).join(name), process))
    };
    let names = entries.filter_map(|entry| Some(entry.ok()?.file_name()));
    names
        .filter(|name| is_left(name))
        .map(|name| shown(&folder(path).join(name)))
        .map(|part| format!("a run that was killed has left {part} behind; it may be removed"))
        .collect()
}

/// The process in `PROCESS-NUMBER`, if it is that.
fn process_of(text: &[u8]) -> Option<u32> {
    let (process, number) = std::str::from_utf8(text).ok()?.split_once('-')?;
    number.parse::<u32>().ok().and(process.parse().ok())
}

/// Whether some run still writes a temporary file: its lock tells or, if it is another user's and may not be opened, its
/// process. What is no regular file is nobody's temporary one.
fn is_in_use(part: &Path, process: u32) -> bool {
    if !fs::symlink_metadata(part).is_ok_and(|metadata| metadata.is_file()) {
        return true;
    }
    match File::open(part) {
        Ok(file) => !try_lock(&file).is_ok_and(|free| free),
        Err(_) => Path::new("/proc").join(process.to_string()).exists(),
    }
}

/// A temporary file, locked while it is written. It is removed again unless it got its name.
pub struct Part(PathBuf);

impl Part {
    pub fn create(folder: &Path, path: &Path, mode: u32) -> io::Result<(Part, File)> {
        let beginning = beginning(path)?;
        for number in 0.. {
            let mut name = beginning.clone();
            name.push(format!("{}-{number}.part", process::id()));
            let part = folder.join(name);
            match OpenOptions::new().write(true).create_new(true).mode(mode).open(&part) {
                Err(error) if error.kind() == ErrorKind::AlreadyExists => {}
                opened => {
                    let file = opened?;
                    // Where there are no locks, one that was left cannot be told from this, and is not named.
                    let _ = try_lock(&file);
                    return Ok((Part(part), file));
                }
            }
        }
        unreachable!("some number is free")
    }

    /// Gives the file its name. A link, unlike a renaming, never takes the place of another file; where the file
    /// system has no links, the name is looked at once more.
    pub fn publish(self, path: &Path, existing: Existing) -> io::Result<()> {
        if existing == Existing::Kept {
            match fs::hard_link(&self.0, path) {
                Ok(()) => return Ok(()),
                Err(error) if error.kind() == ErrorKind::AlreadyExists || is_taken(path) => {
                    return Err(ErrorKind::AlreadyExists.into())
                }
                Err(_) => {}
            }
        }
        fs::rename(&self.0, path)
    }
}

impl Drop for Part {
    fn drop(&mut self) {
        // After a renaming there is none; one that cannot be removed is left.
        let _ = fs::remove_file(&self.0);
    }
}
