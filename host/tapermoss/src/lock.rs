//! An image that no other run of the tool changes meanwhile. The lock is `flock`'s, on the image's own file, from before it
//! is read until the new one has its name; whoever waited for it asks again whether the name still means that file.

use crate::image::{contents, open};
use crate::names::shown;
use crate::outcome::Outcome;
use crate::problem::Problem;
use std::fs::{self, File, Metadata};
use std::io::{self, ErrorKind};
use std::os::fd::AsRawFd;
use std::os::unix::fs::{MetadataExt, PermissionsExt};
use std::path::Path;
use std::thread::sleep;
use std::time::Duration;

/// How often a lock that another run has is asked for again, and how long is waited each time: two seconds in all.
const TIMES: u32 = 40;
const WAIT: Duration = Duration::from_millis(50);

/// The bytes of an image and its lock, which goes when this does.
pub struct Locked {
    pub bytes: Vec<u8>,
    pub metadata: Metadata,
    _file: File,
}

/// Reads an image under its lock. One that is to be replaced must be a file that may be written, too: a folder's
/// permission is enough for a renaming, but not for what it does.
pub fn locked(path: &Path, in_place: bool) -> Result<Locked, Problem> {
    for _ in 0..TIMES {
        let mut file = open(path, in_place)?;
        let metadata = file.metadata().map_err(|error| Problem::system("read", path, &error))?;
        if in_place && metadata.permissions().mode() & 0o222 == 0 {
            let told = format!("cannot write to {}: it is read-only", shown(path));
            return Err(Problem::new(Outcome::Unreadable, told));
        }
        let is_ours = match try_lock(&file) {
            // Some file systems have no locks for a file that is only read; the image itself is safe then all the same.
            Err(_) if !in_place => true,
            taken => taken.map_err(|error| Problem::system("lock", path, &error))?,
        };
        if is_ours && is_still(path, &metadata) {
            let bytes = contents(path, &mut file)?;
            return Ok(Locked { bytes, metadata, _file: file });
        }
        if !is_ours {
            sleep(WAIT);
        }
    }
    let told = format!("cannot lock {}: another program has it locked", shown(path));
    Err(Problem::new(Outcome::Unreadable, told))
}

/// Takes the lock of an open file; answers whether it was free.
pub fn try_lock(file: &File) -> io::Result<bool> {
    // SAFETY: the descriptor is open, and the call touches no memory.
    match unsafe { libc::flock(file.as_raw_fd(), libc::LOCK_EX | libc::LOCK_NB) } {
        0 => Ok(true),
        _ => match io::Error::last_os_error() {
            error if error.kind() == ErrorKind::WouldBlock => Ok(false),
            error => Err(error),
        },
    }
}

/// Whether a name still means the file that was opened by it.
fn is_still(path: &Path, opened: &Metadata) -> bool {
    fs::metadata(path).is_ok_and(|now| (now.dev(), now.ino()) == (opened.dev(), opened.ino()))
}
