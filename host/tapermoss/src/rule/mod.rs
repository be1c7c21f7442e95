//! `tapermoss rule`: the hash rule of directories, learnt from the entries that stand in them. Nothing is written to an
//! image.

mod images;
mod report;
mod table;
mod warnings;

use crate::drive::DriveArguments;
use crate::hashing::written;
use crate::names;
use crate::outcome::Outcome;
use crate::problem::Problem;
use crate::told::Told;
use clap::Args;
use images::{worst, Image};
use report::Found;
use std::path::PathBuf;
use warnings::warnings;

pub const EXAMPLES: &str = "\
The hash of a name of n characters c1 .. cn, letters as capitals, is (w0*n + w1*c1 + .. + wn*cn) mod 31, and its entry
stands in a block r of its directory with r mod 31 = hash. The weights w0 to w25 are learnt from the valid entries of the root
and of every other directory, in all partitions of the images; each entry is one equation for them. Directories are found by
their file type, so a partition without a root directory is read too; that it has none is only mentioned. Printed are warnings,
the 26 weights as --rule takes them, each as its remainder by 31, which is all that matters, and remarks: how many entries
agree, which do not (100 at most; --json has all), which weights are settled, and whether the rule is certain. All lines but
that of the weights start with #. Where no entry contradicts another one, all agree. Else the rule is the best one that a
bounded search finds, which takes the same course each time.

A weight is settled if it is the same in all rules that fit the entries that agree, and in all rivals that the search met: rules
that as many entries agree with. One that no entry tells of is printed as 0. Settled does not mean right.
A rule is confirmed if at least 4 different entries agree beyond those that the weights are solved from, each of which could have
failed; more where entries do not agree, for then chance may find a rule too. With none of them, any names in any blocks would
fit as well.
A rule is certain if it is confirmed and no rule that places one of the entries that agree otherwise can agree with as many; or
it is so for names up to a length.
If the entries that agree, all but one in twenty at most, stand in blocks 0, 31, 62 and so on, they say nothing of the rule:
weights of 0 put every name there, whatever the real rule is. Then nothing is called settled, confirmed or certain.

The status is 0 for any other rule, confirmed or not; 4 if the entries say nothing of the rule, or if there is a rival; 7 if
there is no entry to learn from. Images and partitions that cannot be read are reported and passed over, and their statuses
count too.

Examples:
  tapermoss rule disk.img
  tapermoss rule --json one.img another.img
  tapermoss rule disk.img > disk.rule";

#[derive(Args)]
pub struct Arguments {
    /// The images, files of 528-byte records
    #[arg(required = true, value_name = "IMAGE", value_parser = names::path())]
    images: Vec<PathBuf>,
    #[command(flatten)]
    drive: DriveArguments,
    /// The first block of the partition, in every image [default: all partitions]
    #[arg(long, value_name = "S")]
    partition: Option<u32>,
}

pub fn run(arguments: &Arguments) -> Result<Told, Problem> {
    let images: Vec<Image> =
        arguments.images.iter().map(|path| Image::of(path, arguments)).collect();
    let found = Found::of(&images);
    let own = found.problems();
    let out = found.learnt.as_ref().map_or(String::new(), |learnt| {
        let wrong = found.wrong(learnt);
        let lines = |mark: &str, told: Vec<String>| {
            told.iter().map(|line| format!("# {mark}{line}\n")).collect::<String>()
        };
        let warned = lines("warning: ", warnings(learnt, &wrong));
        let remarks = lines("", found.remarks(learnt, &wrong));
        format!("{warned}{}\n{remarks}", written(&learnt.weights))
    });
    let problem = worst(images.iter().flat_map(Image::problems).chain(&own)).cloned();
    let told_of_own = own.iter().map(|problem| format!("tapermoss: {}", problem.sentence));
    Ok(Told {
        outcome: problem.as_ref().map_or(Outcome::Done, |problem| problem.outcome),
        problem,
        out: out.into_bytes(),
        aside: images.iter().flat_map(Image::asides).chain(told_of_own).collect(),
        fields: found.as_json(),
    })
}
