//! New files that are whole or not there. The bytes go to a temporary file in the same folder, and only when they are on
//! the disk does that file get the name; the folder is then written out too. A program that is killed leaves at most a
//! temporary file behind, `.NAME.PROCESS-NUMBER.part`, which nothing reads and which the next run names.

use crate::names::shown;
use crate::outcome::Outcome;
use crate::part::{folder, left_behind, Part};
use crate::problem::Problem;
use std::ffi::OsString;
use std::fs::{self, File, FileTimes, Metadata};
use std::io::{self, ErrorKind, Write};
use std::os::unix::fs::{fchown, MetadataExt};
use std::path::{Path, PathBuf};

/// What becomes of a file that has the name already.
#[derive(Clone, Copy, Debug, PartialEq, Eq)]
pub enum Existing {
    /// It stays, and nothing is written.
    Kept,
    /// The new file takes its place in one step.
    Replaced,
}

impl Existing {
    pub fn under(force: bool) -> Existing {
        if force {
            return Existing::Replaced;
        }
        Existing::Kept
    }
}

/// What a new file has in common with another one.
#[derive(Clone, Copy)]
pub enum Like<'a> {
    /// Nothing: it is a file as any program makes it.
    New,
    /// It holds what the other holds, so only whom the other lets may read it, at no moment anyone else.
    Mode(&'a Metadata),
    /// It takes the other's place: owner, mode and times are kept, where the system allows it.
    Itself(&'a Metadata),
}

/// The path with an ending after the whole name.
pub fn beside(path: &Path, ending: &str) -> PathBuf {
    let mut name = OsString::from(path);
    name.push(ending);
    PathBuf::from(name)
}

/// Refuses a name that is taken, or that is a file which must not be touched.
pub fn must_be_free(path: &Path, existing: Existing, untouched: &Path) -> Result<(), Problem> {
    must_be_another(path, untouched)?;
    match existing {
        Existing::Kept if is_taken(path) => Err(taken(path)),
        _ => Ok(()),
    }
}

/// Refuses the name of a file which must not be touched.
pub fn must_be_another(path: &Path, untouched: &Path) -> Result<(), Problem> {
    match (fs::canonicalize(path), fs::canonicalize(untouched)) {
        (Ok(one), Ok(other)) if one == other => {
            Err(Problem::usage(format!("{} is the image itself", shown(path))))
        }
        _ => Ok(()),
    }
}

pub fn is_taken(path: &Path) -> bool {
    fs::symlink_metadata(path).is_ok()
}

/// Whether force replaces what has a name: anything but a folder.
pub fn is_replaceable(path: &Path) -> bool {
    !fs::symlink_metadata(path).is_ok_and(|metadata| metadata.is_dir())
}

/// What is said of a name that is taken.
pub fn taken(path: &Path) -> Problem {
    let told = match is_replaceable(path) {
        true => format!("{} is there already; --force replaces it", shown(path)),
        false => format!("{} is there already, a folder", shown(path)),
    };
    Problem::new(Outcome::AnotherFile, told)
}

/// Puts a file there, whole; answers what there is to say about it.
pub fn put(
    path: &Path,
    bytes: &[u8],
    like: Like,
    existing: Existing,
) -> Result<Vec<String>, Problem> {
    let mut notes = left_behind(path);
    let kept = written(path, bytes, like, existing).map_err(|error| match error.kind() {
        ErrorKind::AlreadyExists => taken(path),
        _ => Problem::system("write", path, &error),
    })?;
    if !kept {
        notes.push(format!(
            "{} has another owner or group now: the system did not allow it to be kept",
            shown(path)
        ));
    }
    Ok(notes)
}

/// Answers whether the owner is who it should be.
fn written(path: &Path, bytes: &[u8], like: Like, existing: Existing) -> io::Result<bool> {
    let folder = folder(path);
    let mode = if matches!(like, Like::New) { 0o666 } else { 0o600 };
    let (part, mut file) = Part::create(folder, path, mode)?;
    file.write_all(bytes)?;
    let kept = alike(&file, like)?;
    file.sync_all()?;
    part.publish(path, existing)?;
    File::open(folder)?.sync_all()?;
    Ok(kept)
}

/// Gives a file owner, mode and times. The owner first: a change of owner takes some of the mode away.
fn alike(file: &File, like: Like) -> io::Result<bool> {
    let (metadata, itself) = match like {
        Like::New => return Ok(true),
        Like::Mode(metadata) => (metadata, false),
        Like::Itself(metadata) => (metadata, true),
    };
    let kept = !itself || owned_as(file, metadata)?;
    file.set_permissions(metadata.permissions())?;
    if itself {
        let times = FileTimes::new().set_accessed(metadata.accessed()?);
        file.set_times(times.set_modified(metadata.modified()?))?;
    }
    Ok(kept)
}

/// Gives a file the owner and the group of another one, each if the system allows it; answers whether it has both.
fn owned_as(file: &File, other: &Metadata) -> io::Result<bool> {
    let own = file.metadata()?;
    let group = own.gid() == other.gid() || fchown(file, None, Some(other.gid())).is_ok();
    let owner = own.uid() == other.uid() || fchown(file, Some(other.uid()), None).is_ok();
    Ok(group && owner)
}
