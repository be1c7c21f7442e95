//! Reads, edits and repairs disk images of the PERQ workstation: one partition on a volume image that the caller lends.
//!
//! The work is done by a library that is proved against its specification; this crate gives it Rust's types. An image is a
//! slice of 528-byte records in the order of their logical block numbers (LBNs). A partition is named by `s`, its first
//! block; a file by `f`, the block that describes it; a block of a file by `r`, counted from 0. The names of files stand in
//! directories: `look_up` follows a path from the root down, `tree` lists all that is there. A file's description has a name
//! too; `describe` takes only one that can be typed, and `name` says what is wrong with another.
//!
//! Every call takes any image at all: one that it cannot accept is refused with a [`Refusal`], and then nothing was stored
//! and no buffer was touched.
//!
//! What a call changes must not overlap with anything else that it is lent. Here it cannot: it is lent as `&mut`, so to nobody
//! else, and no function takes a pointer. This one is refused, for there is no partition:
//!
//! ```
//! # use perq::{extract, Drive, Refusal};
//! # let mut image = vec![0; 528 * 40];
//! # let mut buffer = vec![0; 512];
//! assert_eq!(extract(&image, Drive::Floppy, 1, 2, &mut buffer[..512]), Err(Refusal::Partition));
//! ```
//!
//! and this one does not compile:
//!
//! ```compile_fail,E0502
//! # use perq::{extract, Drive, Refusal};
//! # let mut image = vec![0; 528 * 40];
//! # let mut buffer = vec![0; 512];
//! assert_eq!(extract(&image, Drive::Floppy, 1, 2, &mut image[..512]), Err(Refusal::Partition));
//! ```
//!
//! ```
//! use perq::{lbn_to_lda, lbn_to_pda, Drive, Words};
//!
//! let lda = lbn_to_lda(Drive::Shugart24, 210)?;
//! let pda = lbn_to_pda(Drive::Shugart24, 210)?;
//! assert_eq!(Words(lda).to_string(), "151000 140000");
//! assert_eq!(Words(pda).to_string(), "000400 000000");
//! # Ok::<(), perq::Refusal>(())
//! ```
#![deny(unsafe_code)]
#![warn(missing_docs)]

mod address;
mod changing;
mod directory;
mod drive;
mod name;
#[allow(unsafe_code)]
pub mod raw;
mod reading;
mod refusal;

pub use address::{
    fileid_to_lbn, lbn_to_fileid, lbn_to_lda, lbn_to_pda, lda_to_lbn, pda_to_lbn, Words,
};
pub use changing::{blank, create, describe, destroy, repair, write, Created, ALL};
pub use directory::{look_up, tree, Row, Rule, Target, Tree, What, JOINT, ROW};
pub use drive::Drive;
pub use name::{name, NameFault};
pub use reading::{
    check, description, extract, files, next_file, read, show, show_pair, whole_file,
};
pub use reading::{Files, Presence, Shown, Source, Summary};
pub use refusal::Refusal;

/// The bytes of one record: 16 of header, 512 of data.
pub const RECORD: usize = 528;
/// The bytes of one block's data.
pub const DATA: usize = 512;
/// The bytes of a file's description.
pub const DESCRIPTION: usize = 104;
