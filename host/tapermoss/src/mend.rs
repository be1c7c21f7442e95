//! The repair of an image's partitions, from its file to the new one: what `repair` and `batch` share.

use crate::asked::Asked;
use crate::drive::{the_drive, DriveArguments};
use crate::image::read;
use crate::keep::{self, Existing, Like};
use crate::layout::{Layout, Place, Standing};
use crate::lock::{locked, Locked};
use crate::names::shown;
use crate::outcome::Outcome;
use crate::problem::Problem;
use crate::repairing::{repair, Wish};
use crate::rows::{chosen, Row};
use perq::{Drive, ALL};
use std::borrow::Cow;
use std::fs;
use std::path::{Path, PathBuf};

/// What is asked for.
pub struct Request {
    pub drive: DriveArguments,
    pub partition: Option<u32>,
    /// The new image's name; none if it takes the old one's place.
    pub to: Option<PathBuf>,
    pub wish: Wish,
    pub limit: Option<u32>,
}

/// What came of it.
pub struct Mended {
    pub drive: Drive,
    pub layout: Layout,
    pub rows: Vec<Row>,
    pub written: Written,
    /// What there is to say besides.
    pub notes: Vec<String>,
}

/// Where the new image is.
pub enum Written {
    /// There is none: nothing was repaired.
    Nowhere,
    There(PathBuf),
    /// It was there already, the same byte for byte.
    Earlier(PathBuf),
}

pub fn mend(path: &Path, request: &Request) -> Result<Mended, Problem> {
    let original = locked(path, request.to.is_none())?;
    let drive = the_drive(&original.bytes, request.drive)?;
    let layout = Layout::of(&original.bytes, drive)
        .map_err(|refusal| Asked::of(&original.bytes, drive, 0).refused(refusal))?;
    let places = chosen(&layout, request.partition)?;
    let mut image = Cow::Borrowed(&original.bytes[..]);
    let mut left = request.limit.unwrap_or(ALL);
    let rows: Vec<Row> = places
        .iter()
        .map(|place| {
            let work = || repair(&mut image, drive, place, request.wish, &mut left);
            Row { place: *place, result: place.problem().map_or_else(work, Err) }
        })
        .collect();
    let mut mended = Mended { drive, layout, rows, written: Written::Nowhere, notes: Vec::new() };
    if mended.rows.iter().any(Row::is_worked) {
        mended.write(path, &original, &image, request)?;
    }
    Ok(mended)
}

impl Mended {
    /// Writes the new image, in the place of the old one or beside it.
    fn write(
        &mut self,
        path: &Path,
        original: &Locked,
        image: &[u8],
        request: &Request,
    ) -> Result<(), Problem> {
        match &request.to {
            None => {
                let like = Like::Itself(&original.metadata);
                self.put(&real(path)?, image, like, Existing::Replaced)
            }
            Some(to) if keep::is_taken(to) => self.add(to, original, image, request.wish.force),
            Some(to) => self.put(to, image, Like::Mode(&original.metadata), Existing::Kept),
        }
    }

    fn put(
        &mut self,
        to: &Path,
        image: &[u8],
        like: Like,
        existing: Existing,
    ) -> Result<(), Problem> {
        self.notes.extend(keep::put(to, image, like, existing)?);
        self.written = Written::There(to.to_path_buf());
        Ok(())
    }

    /// Where a file has the name already: adds what was repaired now, if that file holds nothing but repairs of this
    /// original; any other one is kept or, by force, replaced.
    fn add(
        &mut self,
        to: &Path,
        original: &Locked,
        image: &[u8],
        force: bool,
    ) -> Result<(), Problem> {
        let like = Like::Mode(&original.metadata);
        let there = read(to);
        let is_whole =
            self.rows.iter().all(|row| row.outcome() != Outcome::Refused || !row.is_worked());
        let held = there.as_ref().ok().and_then(|there| self.held(&original.bytes, there));
        match (held, there) {
            (Some(held), Ok(there)) if is_whole => {
                let sum = self.sum(&there, image);
                if sum == there {
                    self.written = Written::Earlier(to.to_path_buf());
                    return Ok(());
                }
                self.say_kept(to, &held);
                self.put(to, &sum, like, Existing::Replaced)
            }
            _ if force => self.put(to, image, like, Existing::Replaced),
            (Some(_), _) => Err(keep::taken(to)),
            (None, there) => {
                self.is_taken(to, there.err());
                Ok(())
            }
        }
    }

    /// What is there, with the partitions that were repaired now.
    fn sum(&self, there: &[u8], image: &[u8]) -> Vec<u8> {
        let mut sum = there.to_vec();
        for row in self.rows.iter().filter(|row| row.is_worked()) {
            sum[row.place.bytes()].copy_from_slice(&image[row.place.bytes()]);
        }
        sum
    }

    /// Takes note of repairs that are there and that were not made now.
    fn say_kept(&mut self, to: &Path, held: &[u32]) {
        let is_new = |s: u32| self.rows.iter().any(|row| row.is_worked() && row.place.s == s);
        let kept: Vec<u32> = held.iter().copied().filter(|&s| !is_new(s)).collect();
        let note = |s| {
            format!(
                "{} held the repair of the partition at block {s} already; it is kept",
                shown(to)
            )
        };
        self.notes.extend(kept.into_iter().map(note));
    }

    /// The partitions that an image has repaired, if that is all in which it differs from the original.
    fn held(&self, original: &[u8], there: &[u8]) -> Option<Vec<u32>> {
        if there.len() != original.len() {
            return None;
        }
        let apart = self.layout.partitions().filter(|place| place.standing == Standing::Good);
        let asked = self.rows.iter().map(|row| &row.place).filter(|place| place.last.is_some());
        let mut rest = there.to_vec();
        let mut held = Vec::new();
        for place in apart.chain(asked) {
            let part = place.bytes();
            if rest[part.clone()] != original[part.clone()] {
                rest[part.clone()].copy_from_slice(&original[part.clone()]);
                held.push(self.repaired(original, place, &there[part])?);
            }
        }
        (rest == original).then_some(held)
    }

    /// The partition, if repair makes these bytes of it.
    fn repaired(&self, original: &[u8], place: &Place, there: &[u8]) -> Option<u32> {
        let mut image = original.to_vec();
        perq::repair(&mut image, self.drive, place.s, ALL).ok()?;
        (image[place.bytes()] == *there).then_some(place.s)
    }

    /// The name is another file's, or that of one which cannot be read and so not be compared: what was repaired is written
    /// nowhere, so no partition is.
    fn is_taken(&mut self, to: &Path, unread: Option<Problem>) {
        let why = match unread {
            Some(problem) if problem.outcome == Outcome::Unreadable => {
                format!(", and it is not compared ({})", problem.sentence)
            }
            _ => format!(": {} is not what repair makes of this image", shown(to)),
        };
        let force = if keep::is_replaceable(to) { ", and --force replaces it" } else { "" };
        let told = format!("there is another file{why}; both are kept{force}");
        for row in self.rows.iter_mut().filter(|row| row.is_worked()) {
            row.result = Err(Problem::new(Outcome::AnotherFile, told.clone()));
        }
    }
}

/// The name behind all links.
pub fn real(path: &Path) -> Result<PathBuf, Problem> {
    fs::canonicalize(path).map_err(|error| Problem::system("read", path, &error))
}
