//! The report of a batch: a table or JSON, and the worst outcome.

use super::Judged;
use crate::mend::{Mended, Written};
use crate::names::{name_bytes, shown};
use crate::outcome::Outcome;
use crate::problem::Problem;
use crate::rows::{self, Row};
use crate::told::{counted, reported, Told};
use serde_json::{json, Value};
use std::path::Path;

/// A line of the table: what it is about, what came of it, and what there is to say.
type Line = [String; 3];

impl Judged {
    fn outcome(&self) -> Outcome {
        match &self.result {
            Ok(mended) => rows::worst(&mended.rows).map_or(Outcome::Done, Row::outcome),
            Err(problem) => problem.outcome,
        }
    }

    /// Why it is neither sound nor repaired.
    fn problem(&self) -> Option<Problem> {
        match &self.result {
            Ok(mended) => rows::worst(&mended.rows).and_then(Row::problem),
            Err(problem) => Some(problem.clone()),
        }
    }

    fn shown(&self) -> String {
        shown(Path::new(&self.name))
    }
}

/// Where the repaired image is, before what it holds.
fn place(written: &Written) -> String {
    let name = |path: &Path| shown(Path::new(path.file_name().unwrap_or_default()));
    match written {
        Written::Nowhere => String::new(),
        Written::There(to) => name(to),
        Written::Earlier(to) => format!("{} (there already)", name(to)),
    }
}

/// The lines of an image: one, or one for it and one for each partition if there is more to say than of a single one.
fn lines(judged: &Judged) -> Vec<Line> {
    let line = |remark: String| [judged.shown(), judged.outcome().name().to_string(), remark];
    match &judged.result {
        Err(problem) => vec![line(problem.sentence.clone())],
        Ok(mended) => match (&mended.rows[..], mended.layout.overruled().next(), &mended.written) {
            ([row], None, Written::Nowhere) => vec![line(row.remark())],
            ([row], None, written) => {
                vec![line(format!("{}: {}", place(written), row.remark()))]
            }
            (rows, _, written) => {
                let count = counted(rows.len() as u32, "partition");
                let remark = match written {
                    Written::Nowhere => count,
                    _ => format!("{}: {count}", place(written)),
                };
                [line(remark)].into_iter().chain(of_partitions(mended)).collect()
            }
        },
    }
}

fn of_partitions(mended: &Mended) -> Vec<Line> {
    let at = |s: u32| format!("  at block {s}");
    let rows = mended
        .rows
        .iter()
        .map(|row| [at(row.place.s), row.outcome().name().to_string(), row.remark()]);
    let overruled = mended.layout.overruled().map(|(place, by)| {
        [at(place.s), "not taken".to_string(), format!("it {}", rows::mention(by))]
    });
    rows.chain(overruled).collect()
}

fn count(judged: &[Judged], outcome: Outcome) -> usize {
    judged.iter().filter(|judged| judged.outcome() == outcome).count()
}

fn as_text(judged: &[Judged]) -> String {
    let lines: Vec<Line> = judged.iter().flat_map(lines).collect();
    let width = lines.iter().map(|[name, ..]| name.chars().count()).max().unwrap_or(0).max(5);
    let mut text = format!("{:<width$}  outcome\n", "image");
    for [name, outcome, remark] in lines {
        let line = format!("{name:<width$}  {outcome:<12}  {remark}");
        text += &format!("{}\n", line.trim_end());
    }
    let counts =
        Outcome::OF_IMAGES.map(|outcome| format!("{} {}", count(judged, outcome), outcome.name()));
    text + "\n" + &counts.join(", ") + "\n"
}

/// What came of an image, with a partition's objects.
fn image_as_json(judged: &Judged) -> Value {
    let mut object = reported(judged.outcome(), judged.problem().as_ref());
    object["image"] = json!(judged.shown());
    object["name_bytes"] = json!(name_bytes(Path::new(&judged.name)));
    if let Ok(mended) = &judged.result {
        let (repaired, earlier) = match &mended.written {
            Written::Nowhere => (None, false),
            Written::There(to) => (Some(to.as_path()), false),
            Written::Earlier(to) => (Some(to.as_path()), true),
        };
        object["drive"] = json!(mended.drive.number());
        object["partitions"] = mended.rows.iter().map(Row::as_json).collect();
        object["not_taken"] = rows::not_taken(&mended.layout, &mended.rows);
        object["repaired"] = json!(repaired.map(shown));
        object["repaired_bytes"] = json!(repaired.map(name_bytes));
        object["earlier"] = json!(earlier);
        object["notes"] = json!(mended.notes);
    }
    object
}

/// All of it.
pub fn told(judged: &[Judged]) -> Told {
    let mut fields = json!({"images": judged.iter().map(image_as_json).collect::<Vec<_>>()});
    for outcome in Outcome::OF_IMAGES {
        fields[outcome.name().replace(' ', "_")] = json!(count(judged, outcome));
    }
    let worst = judged.iter().rev().max_by_key(|judged| judged.outcome());
    let notes = judged.iter().filter_map(|judged| judged.result.as_ref().ok());
    Told {
        outcome: worst.map_or(Outcome::Done, Judged::outcome),
        problem: worst.and_then(Judged::problem),
        out: as_text(judged).into_bytes(),
        aside: notes.flat_map(|mended| mended.notes.clone()).collect(),
        fields,
    }
}
