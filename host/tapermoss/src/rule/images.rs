//! What the images say: the valid entries of their directories, and what could not be read.

use super::Arguments;
use crate::asked::Asked;
use crate::directories::Directories;
use crate::drive::the_drive;
use crate::entries;
use crate::fields::{DIRECTORY, SORT};
use crate::image::read;
use crate::layout::{Layout, Place};
use crate::learn::Equation;
use crate::names::{name_bytes, shown};
use crate::outcome::Outcome;
use crate::problem::Problem;
use crate::rows;
use crate::told::{joined, reported};
use crate::volume;
use perq::{Drive, Refusal, Rule};
use serde_json::{json, Value};
use std::path::Path;

/// A valid entry, and the directory that it stands in.
pub struct Entry {
    pub partition: u32,
    pub directory: u32,
    pub own: entries::Entry,
}

impl Entry {
    /// What it says of the weights.
    pub fn equation(&self) -> Equation {
        Equation::of(&self.own.name, self.own.block)
    }
}

/// A partition that was looked at.
struct Part {
    place: Place,
    directories: u32,
    malformed: Vec<u32>,
    entries: Vec<Entry>,
    /// That it has no root, and what was looked at then.
    rootless: Option<String>,
    /// Why it was not looked at.
    problem: Option<Problem>,
}

impl Part {
    fn of(image: &[u8], drive: Drive, place: &Place) -> Part {
        let (malformed, entries) = (Vec::new(), Vec::new());
        let problem = place.problem();
        let place = *place;
        let mut part = Part { place, directories: 0, malformed, entries, rootless: None, problem };
        if part.problem.is_none() {
            part.problem = part.look(image, drive).err();
        }
        part
    }

    /// Reads the root and all files that are directories by their type: without a root, these alone.
    fn look(&mut self, image: &[u8], drive: Drive) -> Result<(), Problem> {
        let s = self.place.s;
        let refused = |refusal| Asked::of(image, drive, s).refused(refusal);
        let volume::Survey { files, malformed, .. } =
            volume::survey(image, drive, s).map_err(refused)?;
        self.malformed = malformed;
        let directories = Directories { image, drive, s, rule: Rule::Unknown };
        let root = directories.find(b"");
        for f in files {
            let description = perq::description(image, drive, s, f).map_err(refused)?;
            let sort = u16::from_le_bytes([description[2 * SORT], description[2 * SORT + 1]]);
            if sort == DIRECTORY || root.as_ref().is_ok_and(|&root| root == f) {
                let entries = directories.entries(f).map_err(refused)?;
                let entry = |own| Entry { partition: s, directory: f, own };
                self.entries.extend(entries.into_iter().map(entry));
                self.directories += 1;
            }
        }
        match root {
            Err(problem) if problem.number == Some(Refusal::NoFile.number()) => {
                self.rootless = Some(rootless(&problem));
                Ok(())
            }
            other => other.map(|_| ()),
        }
    }

    fn as_json(&self) -> Value {
        let outcome = self.problem.as_ref().map_or(Outcome::Done, |problem| problem.outcome);
        let own = json!({
            "directories": self.directories, "entries": self.entries.len(),
            "malformed": self.malformed, "rootless": self.rootless,
        });
        let place = self.place.as_json();
        joined(joined(reported(outcome, self.problem.as_ref()), &place), &own)
    }
}

/// What is said of a partition without a root, which is no refusal here.
fn rootless(problem: &Problem) -> String {
    let refused = format!("refused ({}): ", Refusal::NoFile.number());
    let told = problem.sentence.strip_prefix(&refused).unwrap_or(&problem.sentence);
    format!("{told}; its directories are found by their file type")
}

/// An image that was looked at.
struct Look {
    drive: Drive,
    layout: Layout,
    parts: Vec<Part>,
}

/// What came of an image.
pub struct Image<'a> {
    pub path: &'a Path,
    look: Result<Look, Problem>,
}

impl Image<'_> {
    pub fn of<'a>(path: &'a Path, arguments: &Arguments) -> Image<'a> {
        let look = || {
            let bytes = read(path)?;
            let drive = the_drive(&bytes, arguments.drive)?;
            let refused = |refusal| Asked::of(&bytes, drive, 0).refused(refusal);
            let layout = Layout::of(&bytes, drive).map_err(refused)?;
            let places = rows::chosen(&layout, arguments.partition)?;
            let parts = places.iter().map(|place| Part::of(&bytes, drive, place)).collect();
            Ok(Look { drive, layout, parts })
        };
        Image { path, look: look() }
    }

    fn parts(&self) -> &[Part] {
        self.look.as_ref().map_or(&[], |look| &look.parts)
    }

    /// The entries of all its partitions.
    pub fn entries(&self) -> impl Iterator<Item = &Entry> {
        self.parts().iter().flat_map(|part| &part.entries)
    }

    pub fn problems(&self) -> impl Iterator<Item = &Problem> {
        let of_parts = self.parts().iter().filter_map(|part| part.problem.as_ref());
        self.look.as_ref().err().into_iter().chain(of_parts)
    }

    /// Those places that are only mentioned, each with the listed one that it shares blocks with.
    fn not_taken(&self) -> impl Iterator<Item = (&Place, u32)> {
        let overruled = self.look.iter().flat_map(|look| look.layout.overruled());
        overruled.filter(|(place, _)| self.parts().iter().all(|part| part.place.s != place.s))
    }

    /// What is said of it on standard error.
    pub fn asides(&self) -> Vec<String> {
        let name = shown(self.path);
        let problem = |problem: &Problem| format!("tapermoss: {name}: {}", problem.sentence);
        let rootless = self.parts().iter().flat_map(|part| &part.rootless);
        let remarks = rootless.map(|told| format!("{name}: {told}"));
        let malformed = self.parts().iter().flat_map(|part| &part.malformed);
        let passed = malformed.map(|block| {
            format!("{name}: block {block} is a malformed file block, which is passed over")
        });
        let not_taken = self.not_taken().map(|(place, by)| {
            format!("{name}: block {} {}: it is not taken for one", place.s, rows::mention(by))
        });
        self.problems().map(problem).chain(remarks).chain(passed).chain(not_taken).collect()
    }

    pub fn as_json(&self) -> Value {
        let worst = worst(self.problems());
        let mut object = reported(worst.map_or(Outcome::Done, |it| it.outcome), worst);
        object["image"] = json!(shown(self.path));
        object["image_bytes"] = json!(name_bytes(self.path));
        object["drive"] = json!(self.look.as_ref().ok().map(|look| look.drive.number()));
        object["partitions"] = self.parts().iter().map(Part::as_json).collect();
        object["not_taken"] = self.not_taken().map(|(place, _)| place.as_json()).collect();
        object
    }
}

/// The worst of several, the first of equals.
pub fn worst<'a>(problems: impl Iterator<Item = &'a Problem>) -> Option<&'a Problem> {
    problems.reduce(|worst, problem| if problem.outcome > worst.outcome { problem } else { worst })
}
