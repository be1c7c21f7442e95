//! A partition as a person would see it: the table of its files. Demand 3 is about nothing else.

use crate::call::{Call, Name};
use crate::images::{word, Place, DATA_WORD};
use perq::Drive;
use reference::file::{DESCRIPTION, KIND};
use reference::image::DATA;

/// What a person would call a file: its place, its kind, its description and its bytes.
#[derive(Clone, Debug, PartialEq, Eq)]
pub struct File {
    pub f: u32,
    pub kind: u16,
    pub description: Vec<u8>,
    pub bytes: Vec<u8>,
}

/// The table of files of a partition, asked of the library.
///
/// # Panics
/// If the partition is not sound.
pub fn table(image: &[u8], place: &Place) -> Vec<File> {
    let drive = Drive::from_number(place.drive).expect("a drive");
    perq::check(image, drive, place.s).expect("a sound partition");
    let files = perq::files(image, drive, place.s).expect("a good partition");
    let row = |f| File {
        f,
        kind: word(image, f, DATA_WORD + KIND),
        description: perq::description(image, drive, place.s, f).expect("a file").to_vec(),
        bytes: perq::whole_file(image, drive, place.s, f).expect("a file"),
    };
    files.map(row).collect()
}

/// The table after a call that answers `a`, worked out from the one before it.
pub fn table_after(before: &[File], call: &Call, a: u32) -> Vec<File> {
    let mut files = before.to_vec();
    match call.name {
        Name::Create => {
            let (kind, description) = (call.number as u16, vec![0; DESCRIPTION]);
            files.push(File { f: a, kind, description, bytes: Vec::new() });
            files.sort_by_key(|file| file.f);
        }
        Name::Destroy => files.retain(|file| file.f != call.f),
        _ => {
            let file =
                files.iter_mut().find(|file| file.f == call.f).expect("the file that is named");
            let from = DATA * call.r as usize;
            match call.name {
                Name::Describe => file.description = call.buffer.clone(),
                _ if from == file.bytes.len() => file.bytes.extend(&call.buffer),
                _ => file.bytes[from..from + DATA].copy_from_slice(&call.buffer),
            }
        }
    }
    files
}
