//! What the tests of the tool share: running it, a folder of their own, and sample images.
#![allow(dead_code)] // each test program uses a part of this

pub mod planted;
pub mod rules;

use reference::image::{HEADER, RECORD};
use reference::sample::scattered;
use serde_json::Value;
use std::ffi::CString;
use std::fs;
use std::os::unix::ffi::OsStrExt;
use std::path::{Path, PathBuf};
use std::process::{Command, Output};
use std::sync::atomic::{AtomicU32, Ordering};

/// The tool, ready to be run.
pub fn tool(arguments: &[&str]) -> Command {
    let mut command = Command::new(env!("CARGO_BIN_EXE_tapermoss"));
    command.args(arguments);
    command
}

pub fn tapermoss(arguments: &[&str]) -> Output {
    tool(arguments).output().expect("the tool runs")
}

/// What it prints when all goes well.
pub fn printed(arguments: &[&str]) -> String {
    String::from_utf8(printed_bytes(arguments)).expect("text")
}

pub fn printed_bytes(arguments: &[&str]) -> Vec<u8> {
    let output = tapermoss(arguments);
    assert_eq!(output.status.code(), Some(0), "{arguments:?}: {output:?}");
    output.stdout
}

/// What it prints when it ends with this status and has nothing to complain of.
#[track_caller]
pub fn printed_with(status: i32, arguments: &[&str]) -> String {
    let output = tapermoss(arguments);
    assert_eq!(output.status.code(), Some(status), "{arguments:?}: {output:?}");
    assert!(output.stderr.is_empty(), "{arguments:?}: {output:?}");
    String::from_utf8(output.stdout).expect("text")
}

/// Status 1, a refusal of the library: nothing on standard output, and this one sentence.
#[track_caller]
pub fn fails(arguments: &[&str], sentence: &str) {
    fails_with(1, arguments, sentence);
}

/// This status, nothing on standard output, and this one sentence.
#[track_caller]
pub fn fails_with(status: i32, arguments: &[&str], sentence: &str) {
    let output = tapermoss(arguments);
    let told = String::from_utf8_lossy(&output.stderr);
    assert_eq!(told, format!("tapermoss: {sentence}\n"), "{arguments:?}");
    assert_eq!(output.status.code(), Some(status), "{arguments:?}");
    assert!(output.stdout.is_empty(), "{arguments:?}");
}

/// Status 2, and nothing on standard output.
#[track_caller]
pub fn misused(arguments: &[&str]) -> String {
    let output = tapermoss(arguments);
    assert_eq!(output.status.code(), Some(2), "{arguments:?}: {output:?}");
    assert!(output.stdout.is_empty(), "{arguments:?}");
    String::from_utf8(output.stderr).expect("text")
}

/// The object that a command prints.
#[track_caller]
pub fn object(arguments: &[&str]) -> Value {
    let output = tapermoss(&[arguments, &["--json"]].concat());
    serde_json::from_slice(&output.stdout).unwrap_or_else(|error| panic!("{error}: {output:?}"))
}

/// What a run has said on standard error.
pub fn told(output: &Output) -> String {
    String::from_utf8(output.stderr.clone()).expect("text")
}

/// A folder that a test has for itself, and that goes when it ends.
pub struct Folder(PathBuf);

impl Folder {
    pub fn new() -> Folder {
        static NUMBER: AtomicU32 = AtomicU32::new(0);
        let number = NUMBER.fetch_add(1, Ordering::Relaxed);
        let name = format!("tapermoss-test-{}-{number}", std::process::id());
        let path = std::env::temp_dir().join(name);
        fs::create_dir(&path).expect("a new folder");
        Folder(path)
    }

    pub fn path(&self, name: &str) -> PathBuf {
        self.0.join(name)
    }

    pub fn text(&self, name: &str) -> String {
        self.path(name).to_str().expect("text").to_string()
    }

    /// Puts a file there; answers its path.
    pub fn put(&self, name: &str, bytes: &[u8]) -> String {
        fs::write(self.path(name), bytes).expect("a file");
        self.text(name)
    }

    pub fn read(&self, name: &str) -> Vec<u8> {
        fs::read(self.path(name)).expect("the file is there")
    }

    /// The names in the folder, in order.
    pub fn names(&self) -> Vec<String> {
        let entries = fs::read_dir(&self.0).expect("the folder is there");
        let mut names: Vec<String> = entries
            .map(|entry| entry.expect("an entry").file_name().into_string().expect("text"))
            .collect();
        names.sort();
        names
    }
}

impl AsRef<Path> for Folder {
    fn as_ref(&self) -> &Path {
        &self.0
    }
}

impl Drop for Folder {
    fn drop(&mut self) {
        // A folder that stays behind is the system's to clear away.
        let _ = fs::remove_dir_all(&self.0);
    }
}

pub const FLOPPY: u32 = 3;

/// A floppy with a partition from 6 to 431: file 7 of three blocks, file 8 of none, file 9 of 70 with a pointer block.
pub fn sample() -> Vec<u8> {
    scattered(FLOPPY, 432, 6, 431, &[3, 0, 70], 7)
}

/// Sets data word k of block b.
pub fn set_word(image: &mut [u8], b: u32, k: usize, value: u16) {
    let at = RECORD * b as usize + HEADER + 2 * k;
    image[at..at + 2].copy_from_slice(&value.to_le_bytes());
}

pub fn set_bytes(image: &mut [u8], b: u32, k: usize, bytes: &[u8]) {
    let at = RECORD * b as usize + HEADER + 2 * k;
    image[at..at + bytes.len()].copy_from_slice(bytes);
}

/// The sample with a malformed file block, 7: its blocks in use are wrong.
pub fn malformed() -> Vec<u8> {
    let mut image = sample();
    set_word(&mut image, 7, 249, 99);
    image
}

/// The sample with a free chain that has no end.
pub fn unsound() -> Vec<u8> {
    let mut image = sample();
    set_word(&mut image, 6, 2, 0);
    image
}

/// A partition in which no block is free: file 7 of 12 blocks from 6 to 20.
pub fn full() -> Vec<u8> {
    let mut image = scattered(FLOPPY, 432, 6, 20, &[12], 7);
    let end = reference::lbn_to_lda(FLOPPY, 19).a;
    set_bytes(&mut image, 6, 120, &end.to_le_bytes());
    image
}

/// A folder with this image in it, `disk`.
pub fn with(image: &[u8]) -> Folder {
    let folder = Folder::new();
    folder.put("disk", image);
    folder
}

/// What a command says, FOLDER being the folder: exit status, standard output with single blanks, standard error.
pub fn said(folder: &Folder, words: &str) -> (i32, String, String) {
    let path = folder.as_ref().to_str().expect("text");
    let words = words.replace("FOLDER", path);
    let output = tapermoss(&words.split(' ').collect::<Vec<&str>>());
    let text = |bytes: Vec<u8>| String::from_utf8_lossy(&bytes).replace(path, "FOLDER");
    let single = |line: &str| line.split_whitespace().collect::<Vec<&str>>().join(" ") + "\n";
    let out = text(output.stdout).lines().map(single).collect();
    (output.status.code().expect("it ends by itself"), out, text(output.stderr))
}

/// How many records of two images are not the same.
pub fn differing(one: &[u8], other: &[u8]) -> usize {
    one.chunks(RECORD).zip(other.chunks(RECORD)).filter(|(one, other)| one != other).count()
}

/// The bytes of a name, as JSON has them.
pub fn hex(bytes: &[u8]) -> String {
    bytes.iter().map(|byte| format!("{byte:02x}")).collect()
}

/// Makes a named pipe.
pub fn pipe(path: &Path) {
    let name = CString::new(path.as_os_str().as_bytes()).expect("no zero in it");
    // SAFETY: the pointer is to a text that ends with a zero.
    assert_eq!(unsafe { libc::mkfifo(name.as_ptr(), 0o644) }, 0);
}
