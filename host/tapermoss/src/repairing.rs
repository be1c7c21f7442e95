//! What a repair of one partition would do and what it does, in memory.

use crate::asked::Asked;
use crate::drive::told;
use crate::layout::{Layout, Place, Standing};
use crate::outcome::Outcome;
use crate::problem::Problem;
use crate::told::counted;
use crate::volume;
use perq::{Drive, Refusal, Summary, ALL, RECORD};
use std::borrow::Cow;

/// How a repair is asked for.
#[derive(Clone, Copy)]
pub struct Wish {
    /// Repair also where files would be lost, or another partition's blocks changed.
    pub force: bool,
    /// Repair a sound partition too.
    pub anyway: bool,
}

/// How a partition stands, and what was done about it.
#[derive(Clone, Debug)]
pub struct Held {
    /// Sound, repaired, or refused where a limit has ended the repair and check would refuse what it left.
    pub outcome: Outcome,
    /// What it holds, if it is sound now.
    pub summary: Option<Summary>,
    /// How many records the repair has changed, and how many stores it made.
    pub changed: u32,
    pub made: u32,
}

impl Held {
    pub fn sound(summary: Summary) -> Held {
        Held { outcome: Outcome::Sound, summary: Some(summary), changed: 0, made: 0 }
    }
}

/// What helps a partition that is not sound. Repair is tried on a copy, so that this is known and not hoped.
pub fn hint(image: &[u8], drive: Drive, s: u32) -> String {
    let place = Layout::of(image, drive).map(|layout| layout.named(s));
    let tried = perq::repair(&mut image.to_vec(), drive, s, ALL);
    match tried.and(place) {
        Err(Refusal::NoFreeBlock) => {
            "repair is refused (9) as no block is free: `cat` still reads its files, and `write` puts them into a fresh image".to_string()
        }
        Err(refusal) => format!("repair is refused ({})", refusal.number()),
        Ok(place) => risk(image, drive, &place).unwrap_or("repair mends it".to_string()),
    }
}

/// What a repair would lose that only a person may give up: blocks of a listed partition, all files, or some of those that
/// stand there if the drive is another.
fn risk(image: &[u8], drive: Drive, place: &Place) -> Option<String> {
    let lost = match place.standing {
        Standing::Overruled { by } => format!("change blocks of the partition at block {by}"),
        _ => loss(image, drive, place.s, place.last?)?,
    };
    Some(format!("repair would {lost}, so it wants --force"))
}

fn loss(image: &[u8], drive: Drive, s: u32, last: u32) -> Option<String> {
    let files = volume::files_of(image, drive, s).count() as u32;
    let others = Drive::ALL.into_iter().filter(|&other| other != drive);
    let most = others
        .map(|other| (volume::candidates(image, other, s, last), other))
        .max_by_key(|&(candidates, _)| candidates);
    let left = format!("leave {}", counted(files, "file"));
    match most {
        Some((candidates, other)) if candidates > files => {
            Some(format!("{left} where {} has {}", told(other), counted(candidates, "file block")))
        }
        _ if files == 0 => Some(left),
        _ => None,
    }
}

/// Repairs a partition if it is not sound; the image is copied only then. `left` is how many stores may still be made.
pub fn repair(
    image: &mut Cow<[u8]>,
    drive: Drive,
    place: &Place,
    wish: Wish,
    left: &mut u32,
) -> Result<Held, Problem> {
    let s = place.s;
    match perq::check(image, drive, s) {
        Ok(summary) if !wish.anyway => return Ok(Held::sound(summary)),
        Ok(_) | Err(Refusal::Unsound) => {}
        Err(refusal) => return Err(judged(image, drive, s, refusal)),
    }
    if !wish.force {
        if let Some(risk) = risk(image, drive, place) {
            let told = format!("the partition at block {s}: {risk}");
            return Err(Problem::new(Outcome::SetAside, told));
        }
    }
    let before = image[place.bytes()].to_vec();
    let made = perq::repair(image.to_mut(), drive, s, *left)
        .map_err(|refusal| Asked::of(image, drive, s).refused(refusal))?;
    *left -= made;
    let records = image[place.bytes()].chunks(RECORD).zip(before.chunks(RECORD));
    let changed = records.filter(|(now, before)| now != before).count() as u32;
    let summary = perq::check(image, drive, s).ok();
    let outcome = if summary.is_some() { Outcome::Repaired } else { Outcome::Refused };
    Ok(Held { outcome, summary, changed, made })
}

/// A refusal of check: a malformed file block is for a person to look at.
pub fn judged(image: &[u8], drive: Drive, s: u32, refusal: Refusal) -> Problem {
    let problem = Asked::of(image, drive, s).refused(refusal);
    match refusal {
        Refusal::Malformed { .. } => problem.set_aside(),
        _ => problem,
    }
}
