//! What the changing commands share: they work on a copy, and the copy becomes a new image beside the old one, or takes
//! its place where that is asked for. The file that is given is not written to in either case.

pub mod create;
pub mod describe;
pub mod destroy;
pub mod fresh;
pub mod repair;
pub mod write;

use crate::asked::Asked;
use crate::drive::the_drive;
use crate::image::{the_partition, PartitionArguments};
use crate::keep::{self, Existing, Like};
use crate::lock::locked;
use crate::mend::real;
use crate::named::NamedFile;
use crate::names::{name_bytes, shown};
use crate::problem::Problem;
use crate::told::{counted, Told};
use clap::Args;
use perq::{Drive, ALL};
use serde_json::{json, Value};
use std::mem;
use std::path::{Path, PathBuf};

/// Where a changing command puts its image, and how far it goes.
#[derive(Args)]
pub struct ChangeArguments {
    #[command(flatten)]
    place: PartitionArguments,
    #[command(flatten)]
    target: TargetArguments,
    /// Replace a file that has the new image's name already
    #[arg(long)]
    force: bool,
}

/// Where a new image goes.
#[derive(Args)]
pub struct TargetArguments {
    /// Write the new image to PATH, not beside the old one
    #[arg(long, value_name = "PATH", conflicts_with = "in_place")]
    output: Option<PathBuf>,
    /// Let the new image take the place of the old one, in one step
    #[arg(long)]
    in_place: bool,
    /// Make only the first N stores, as a machine that fails half way would
    #[arg(long, value_name = "N")]
    limit: Option<u32>,
}

impl TargetArguments {
    /// The new image's name; none if it takes the place of the old one.
    fn path(&self, image: &Path, ending: &str) -> Option<PathBuf> {
        let beside = || keep::beside(image, ending);
        (!self.in_place).then(|| self.output.clone().unwrap_or_else(beside))
    }
}

/// A file of a partition on the command line of a changing command.
#[derive(Args)]
pub struct FileArguments {
    #[command(flatten)]
    change: ChangeArguments,
    #[command(flatten)]
    file: NamedFile,
}

impl FileArguments {
    /// Does the work on a copy of the image, as `ChangeArguments` does, and on a file: the one that is named in the image as
    /// it is before the work.
    fn carry_out(
        &self,
        work: impl FnOnce(&mut Changing, u32) -> Result<(String, Value), Problem>,
    ) -> Result<Told, Problem> {
        self.file.must_not_be_empty()?;
        self.change.carry_out(|image| {
            let file = self.file.find(&image.bytes, image.drive, image.s)?;
            work(image, file)
        })
    }
}

/// A copy of an image that a command changes.
pub struct Changing {
    pub bytes: Vec<u8>,
    pub drive: Drive,
    pub s: u32,
    /// How many stores may still be made.
    pub left: u32,
}

impl Changing {
    pub fn asked(&self) -> Asked<'_> {
        Asked::of(&self.bytes, self.drive, self.s)
    }

    /// Takes note of stores that were made; answers how many, as a text.
    pub fn stores(&mut self, made: u32) -> String {
        self.left -= made;
        let limit = if self.left == 0 { ", as many as the limit allows" } else { "" };
        format!("{}{limit}", counted(made, "store"))
    }
}

impl ChangeArguments {
    /// Does the work on a copy of the image and writes the copy out; says what the work tells, and its fields. Work that is
    /// refused writes nothing.
    pub fn carry_out(
        &self,
        work: impl FnOnce(&mut Changing) -> Result<(String, Value), Problem>,
    ) -> Result<Told, Problem> {
        let given = &self.place.image.image;
        let to = self.target.path(given, ".new");
        let existing = Existing::under(self.force || to.is_none());
        if let Some(to) = &to {
            keep::must_be_free(to, existing, given)?;
        }
        let mut original = locked(given, to.is_none())?;
        let drive = the_drive(&original.bytes, self.place.image.drive)?;
        let s = the_partition(&original.bytes, drive, self.place.partition)?;
        let left = self.target.limit.unwrap_or(ALL);
        let mut image = Changing { bytes: mem::take(&mut original.bytes), drive, s, left };
        let (text, mut fields) = work(&mut image)?;
        let (path, like) = match &to {
            Some(to) => (to.clone(), Like::Mode(&original.metadata)),
            None => (real(given)?, Like::Itself(&original.metadata)),
        };
        let notes = keep::put(&path, &image.bytes, like, existing)?;
        let written = to.as_deref().unwrap_or(given);
        fields["written"] = json!(shown(written));
        fields["written_bytes"] = json!(name_bytes(written));
        let told = Told::done(format!("{text}\nwritten to {}\n", shown(written)), fields);
        Ok(Told { aside: notes, ..told })
    }
}
