//! The partitions of an image with what came of each, as a text and as JSON: what `check`, `repair` and `batch` share.

use crate::layout::{self, Layout, Place};
use crate::outcome::Outcome;
use crate::problem::Problem;
use crate::repairing::{self, Held};
use crate::told::{counted, joined, reported};
use perq::{Drive, Refusal, Summary};
use serde_json::{json, Value};

/// One partition.
pub struct Row {
    pub place: Place,
    pub result: Result<Held, Problem>,
}

impl Row {
    /// What check says of a partition.
    pub fn checked(image: &[u8], drive: Drive, place: &Place) -> Row {
        let check = || match perq::check(image, drive, place.s) {
            Ok(summary) => Ok(Held::sound(summary)),
            Err(refusal) => Err(repairing::judged(image, drive, place.s, refusal)),
        };
        Row { place: *place, result: place.problem().map_or_else(check, Err) }
    }

    pub fn outcome(&self) -> Outcome {
        match &self.result {
            Ok(held) => held.outcome,
            Err(problem) => problem.outcome,
        }
    }

    /// Why it is neither sound nor repaired.
    pub fn problem(&self) -> Option<Problem> {
        match &self.result {
            Ok(Held { summary: Some(_), .. }) => None,
            Ok(Held { made, changed, .. }) => {
                let told = format!(
                    "the partition at block {} is not sound yet: the limit ended its repair after {}, {} changed",
                    self.place.s,
                    counted(*made, "store"),
                    counted(*changed, "record")
                );
                Some(Problem::refused(Refusal::Unsound, &told))
            }
            Err(problem) => Some(problem.clone()),
        }
    }

    /// Whether there is something of it to be written.
    pub fn is_worked(&self) -> bool {
        self.result.as_ref().is_ok_and(|held| held.outcome != Outcome::Sound)
    }

    /// What it holds or why it is not sound, without saying which one it is.
    pub fn remark(&self) -> String {
        let held = self.result.as_ref().ok().and_then(|held| held.summary);
        held.map_or_else(|| self.problem().map_or(String::new(), |it| it.sentence), told)
    }

    /// A sentence of its own; `sound` is what is said of one that is.
    pub fn line(&self, sound: &str) -> String {
        let (s, remark) = (self.place.s, self.remark());
        match &self.result {
            Ok(held) if held.outcome == Outcome::Sound => {
                format!("the partition at block {s} is {sound}: {remark}")
            }
            Ok(held) if held.outcome == Outcome::Repaired => {
                let changed = counted(held.changed, "record");
                format!("the partition at block {s} is repaired, {changed} changed: {remark}")
            }
            _ => remark,
        }
    }

    pub fn as_json(&self) -> Value {
        let held = self.result.as_ref().ok();
        let summary = held.and_then(|held| held.summary);
        let own = json!({
            "files": summary.map(|summary| summary.files),
            "owned": summary.map(|summary| summary.owned),
            "free": summary.map(|summary| summary.free),
            "records_changed": held.map_or(0, |held| held.changed),
        });
        let place = self.place.as_json();
        joined(joined(reported(self.outcome(), self.problem().as_ref()), &place), &own)
    }
}

/// What a sound partition holds, in a row.
pub fn told(summary: Summary) -> String {
    let Summary { files, owned, free } = summary;
    format!("{}, {} owned, {free} free", counted(files, "file"), counted(owned, "block"))
}

/// The places that a command is about: the one that was named, or all partitions.
pub fn chosen(layout: &Layout, named: Option<u32>) -> Result<Vec<Place>, Problem> {
    let places: Vec<Place> = match named {
        Some(s) => vec![layout.named(s)],
        None => layout.partitions().copied().collect(),
    };
    if places.is_empty() {
        return Err(layout::none());
    }
    Ok(places)
}

/// What is said of a block that shares blocks with a listed partition.
pub fn mention(by: u32) -> String {
    format!(
        "looks like a partition, but shares blocks with that at block {by}, which the table lists"
    )
}

/// Those that are only mentioned, and are none of the rows.
fn others<'a>(layout: &'a Layout, rows: &'a [Row]) -> impl Iterator<Item = (&'a Place, u32)> {
    layout.overruled().filter(|(place, _)| rows.iter().all(|row| row.place.s != place.s))
}

/// A line for each of these.
pub fn mentions(layout: &Layout, rows: &[Row]) -> Vec<String> {
    let line = |(place, by): (&Place, u32)| {
        format!("block {} {}: it is not taken for one", place.s, mention(by))
    };
    others(layout, rows).map(line).collect()
}

/// The same as JSON.
pub fn not_taken(layout: &Layout, rows: &[Row]) -> Value {
    others(layout, rows).map(|(place, _)| place.as_json()).collect()
}

/// The worst of several, the first of equals.
pub fn worst(rows: &[Row]) -> Option<&Row> {
    rows.iter().rev().max_by_key(|row| row.outcome())
}
