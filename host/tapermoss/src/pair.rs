//! A pair of images, an original and what repair made of it: the repaired one answers unless it refuses; then the original
//! does, its refusal included.

use crate::asked::Asked;
use crate::directories::Directories;
use crate::drive::{guess, the_drive, DriveArguments};
use crate::image::{read, the_partition};
use crate::problem::Problem;
use crate::show::{shown, Found};
use perq::{Drive, Refusal, Rule, Shown, Source, Target};
use std::path::Path;

/// The bytes of one of a pair. A file that can be no image is lent as an empty one, which the library refuses by the same
/// number, beside the sentence about it.
pub struct One {
    bytes: Vec<u8>,
    no_image: Option<Problem>,
}

pub fn or_empty(path: &Path) -> Result<One, Problem> {
    match read(path) {
        Ok(bytes) => Ok(One { bytes, no_image: None }),
        Err(problem) if problem.number == Some(Refusal::Image.number()) => {
            Ok(One { bytes: Vec::new(), no_image: Some(problem) })
        }
        Err(problem) => Err(problem),
    }
}

/// The two images, with the drive and the partition.
pub struct Pair<'a> {
    original: &'a One,
    repaired: &'a One,
    drive: Drive,
    s: u32,
}

impl<'a> Pair<'a> {
    /// Drive and partition are those of the repaired image or, where it has none, of the original.
    pub fn of(
        original: &'a One,
        repaired: &'a One,
        drive: DriveArguments,
        partition: Option<u32>,
    ) -> Result<Pair<'a>, Problem> {
        let both = [&repaired.bytes, &original.bytes];
        let by_size = both.into_iter().find(|image| guess(image.len()).is_some());
        let place = || {
            let drive = the_drive(by_size.unwrap_or(&original.bytes), drive)?;
            let s = the_partition(&repaired.bytes, drive, partition)
                .or_else(|_| the_partition(&original.bytes, drive, partition))?;
            Ok(Pair { original, repaired, drive, s })
        };
        place().map_err(|problem: Problem| original.no_image.clone().unwrap_or(problem))
    }

    fn image(&self, from: Source) -> &'a [u8] {
        match from {
            Source::Repaired => &self.repaired.bytes,
            Source::Original => &self.original.bytes,
        }
    }

    /// A block of the file that has this block.
    pub fn by_block(&self, file: u32, block: u32) -> Result<Found<'a>, Problem> {
        let Pair { original, repaired, drive, s } = *self;
        let (original, no_image) = (&original.bytes, &original.no_image);
        let Shown { bytes, from } =
            perq::show_pair(original, &repaired.bytes, drive, s, file, block).map_err(
                |refusal| {
                    let asked = Asked::of(original, drive, s).file(file).block(block);
                    no_image.clone().unwrap_or_else(|| asked.refused(refusal))
                },
            )?;
        Ok(Found { file, bytes, image: self.image(from), from: Some(from) })
    }

    /// A block of the file that a path leads to, both from one image: what is a file's block in one may be another file's in
    /// the other. A dangling entry names what show refuses as no file, so the original answers there too, and where one stands
    /// in the way.
    pub fn by_path(&self, path: &[u8], rule: Rule, block: u32) -> Result<Found<'a>, Problem> {
        let Pair { drive, s, .. } = *self;
        let within = |from| Directories { image: self.image(from), drive, s, rule };
        let repaired = within(Source::Repaired);
        let from = match repaired.look_up(path) {
            Ok(Some(Target::File(_))) => Source::Repaired,
            Ok(None) if !repaired.is_barred(path) => Source::Repaired,
            Ok(_) | Err(_) => Source::Original,
        };
        if let (Source::Original, Some(no_image)) = (from, &self.original.no_image) {
            return Err(no_image.clone());
        }
        let file = within(from).find(path).map_err(|problem| {
            let sentence = match problem.number {
                Some(_) => problem.sentence,
                None => format!("{}{}", answered(from), problem.sentence),
            };
            Problem { sentence, ..problem }
        })?;
        let image = self.image(from);
        Ok(Found { file, bytes: shown(image, drive, s, file, block)?, image, from: Some(from) })
    }
}

/// Which image of a pair has answered, before what it answers.
pub fn answered(from: Source) -> &'static str {
    match from {
        Source::Repaired => "the repaired image answered: ",
        Source::Original => "the original image answered: ",
    }
}
