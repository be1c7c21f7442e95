//! What is said of the rule, as remarks and as JSON.

use super::images::{Entry, Image};
use super::table::{self, table, Wrong};
use super::warnings::{self, most_disagree, warnings};
use crate::learn::{learn, Certain, Equation, Learnt, WEIGHTS};
use crate::outcome::Outcome;
use crate::problem::Problem;
use serde_json::{json, Value};
use std::collections::BTreeSet;
use std::path::Path;

/// Entries with the images that they are from, and what is learnt from them.
pub struct Found<'a> {
    images: &'a [Image<'a>],
    entries: Vec<(&'a Path, &'a Entry)>,
    pub learnt: Option<Learnt>,
}

impl<'a> Found<'a> {
    pub fn of(images: &'a [Image]) -> Found<'a> {
        let of_image = |image: &'a Image| image.entries().map(|entry| (image.path, entry));
        let entries: Vec<(&Path, &Entry)> = images.iter().flat_map(of_image).collect();
        let equations: Vec<Equation> = entries.iter().map(|(_, entry)| entry.equation()).collect();
        Found { images, entries, learnt: learn(&equations) }
    }

    /// Those that do not agree.
    pub fn wrong(&self, learnt: &Learnt) -> Vec<Wrong<'a>> {
        let wrong = |&(path, entry): &(&'a Path, &'a Entry)| {
            let (hash, stands) = (entry.equation().hash(&learnt.weights), entry.own.block % 31);
            (u32::from(hash) != stands).then_some((path, entry, stands, hash))
        };
        self.entries.iter().filter_map(wrong).collect()
    }

    /// How many directories and images have an entry.
    fn sources(&self) -> (usize, usize) {
        let directories = |image: &Image| {
            let places = image.entries().map(|entry| (entry.partition, entry.directory));
            places.collect::<BTreeSet<_>>().len()
        };
        let counts = self.images.iter().map(directories).filter(|&count| count > 0);
        counts.fold((0, 0), |(sum, images), count| (sum + count, images + 1))
    }

    /// What keeps the rule from being one that a person need not think about.
    pub fn problems(&self) -> Vec<Problem> {
        let Some(learnt) = &self.learnt else {
            let told = "nothing can be learnt: no directory that was read has a valid entry";
            return vec![Problem::new(Outcome::Absent, told.to_string())];
        };
        let for_a_person = warnings::for_a_person(learnt).into_iter();
        for_a_person.map(|told| Problem::new(Outcome::SetAside, told)).collect()
    }

    /// What is said of the rule besides the warnings, a line each.
    pub fn remarks(&self, learnt: &Learnt, wrong: &[Wrong]) -> Vec<String> {
        let (directories, images) = self.sources();
        let sources = format!(
            "{} of {} in {}: {} agree, {} do not",
            several(self.entries.len(), "entry", "entries"),
            several(directories, "directory", "directories"),
            several(images, "image", "images"),
            learnt.agreeing,
            wrong.len()
        );
        let equations =
            several(learnt.independent, "independent equation", "independent equations");
        let further = several(learnt.confirming, "different further one", "different further ones");
        let confirmed =
            if learnt.is_confirmed() { format!(", confirmed by {further}") } else { String::new() };
        let mut lines = vec![sources, format!("{equations} for 26 weights{confirmed}")];
        if !learnt.says_nothing() {
            lines.extend(of_weights(learnt));
            lines.extend(of_certainty(learnt));
        }
        lines.extend(table(wrong));
        lines
    }

    /// What is not known where nothing was learnt is null.
    pub fn as_json(&self) -> Value {
        let learnt = self.learnt.as_ref();
        let wrong = learnt.map(|learnt| self.wrong(learnt)).unwrap_or_default();
        let (directories, images) = self.sources();
        json!({
            "weights": learnt.map(|it| it.weights),
            "entries": self.entries.len(),
            "directories": directories,
            "images_with_entries": images,
            "agreeing": learnt.map_or(0, |it| it.agreeing),
            "disagreeing": wrong.iter().map(table::as_json).collect::<Vec<_>>(),
            "independent": learnt.map(|it| it.independent),
            "confirming": learnt.map(|it| it.confirming),
            "wanted": learnt.map(|it| it.wanted),
            "confirmed": learnt.map(Learnt::is_confirmed),
            "settled": learnt.map(|it| &it.settled),
            "untold": learnt.map(|it| &it.untold),
            "placed_to": learnt.map(|it| it.placed_to),
            "certain": learnt.map(|it| it.certain == Certain::All),
            "certain_to": learnt.map(certain_to),
            "rival": learnt.and_then(|it| it.rivals.first()),
            "rivals": learnt.map(|it| it.rivals.len()),
            "only_block_0": learnt.map(Learnt::says_nothing),
            "most_disagree": learnt.map(|it| most_disagree(it, &wrong)),
            "warnings": learnt.map_or(Vec::new(), |it| warnings(it, &wrong)),
            "images": self.images.iter().map(Image::as_json).collect::<Vec<_>>(),
        })
    }
}

/// Up to how many characters of a name the rule is certain.
fn certain_to(learnt: &Learnt) -> usize {
    match learnt.certain {
        Certain::All => learnt.placed_to,
        Certain::Names(most) => most,
        Certain::Nothing => 0,
    }
}

pub fn several(number: usize, one: &str, more: &str) -> String {
    format!("{number} {}", if number == 1 { one } else { more })
}

/// Which weights are settled, and what that means for names.
fn of_weights(learnt: &Learnt) -> Vec<String> {
    let Learnt { settled, untold, .. } = learnt;
    let open: Vec<usize> = (0..WEIGHTS).filter(|i| !settled.contains(i)).collect();
    if open.is_empty() {
        return vec!["all weights are settled".to_string()];
    }
    let (disputed, rest): (Vec<usize>, Vec<usize>) =
        open.iter().partition(|&&i| learnt.is_disputed(i));
    let chosen: Vec<usize> = rest.into_iter().filter(|i| !untold.contains(i)).collect();
    let mut lines = vec![format!("settled: {}; not settled: {}", listed(settled), listed(&open))];
    if !disputed.is_empty() {
        lines
            .push(format!("rules that as many entries agree with differ in {}", listed(&disputed)));
    }
    if !untold.is_empty() {
        lines.push(format!("no entry tells of {}: printed as 0", listed(untold)));
    }
    if !chosen.is_empty() {
        let chosen = listed(&chosen);
        lines.push(format!(
            "too few entries tell of {chosen}: printed is one choice of those that fit"
        ));
    }
    lines.extend(of_names(learnt));
    lines
}

/// Which names the rules place alike.
fn of_names(learnt: &Learnt) -> Option<String> {
    let rules = match learnt.rivals.len() {
        0 => "the rules that fit the entries that agree",
        _ => "these rules and those that fit the same entries",
    };
    match learnt.placed_to {
        0 if learnt.rivals.is_empty() => {
            Some(format!("{rules} place these alike, other names perhaps not"))
        }
        0 => None,
        most => Some(format!(
            "{rules} place names of at most {} alike, longer ones perhaps not",
            several(most, "character", "characters")
        )),
    }
}

/// A rule that is the best there is but not confirmed has its warning, and nothing is to be added to that.
fn of_certainty(learnt: &Learnt) -> Option<String> {
    match (learnt.certain, learnt.best) {
        (Certain::All, _) => Some(
            "certain: no rule that places one of these entries otherwise agrees with as many".to_string(),
        ),
        (Certain::Names(most), _) => Some(format!(
            "certain for names of at most {}: no rule that places one of them otherwise agrees with as many entries; \
             for longer names the best that was found",
            several(most, "character", "characters")
        )),
        (Certain::Nothing, Certain::All) => None,
        (Certain::Nothing, _) => {
            Some("the best rule that was found; a better one is not excluded".to_string())
        }
    }
}

/// Weights by their numbers, those in a row together.
fn listed(weights: &[usize]) -> String {
    let run = |run: &[usize]| match run {
        [first, .., last] => format!("w{first} to w{last}"),
        _ => format!("w{}", run[0]),
    };
    let runs: Vec<String> = weights.chunk_by(|one, next| one + 1 == *next).map(run).collect();
    if runs.is_empty() {
        "none".to_string()
    } else {
        runs.join(", ")
    }
}
