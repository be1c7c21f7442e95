//! Which outcomes a run of random calls has met, so that a test can say that it met them all.

use crate::call::{Call, Name};
use reference::{Answer, ABSENT, DONE, REFUSED};
use std::collections::BTreeMap;

/// How often each call had each outcome: 0 for done, the number for refused, `NONE` for absent, `PART` for part done, `BROKEN`
/// plus the rule for a bad name.
#[derive(Clone, Debug, Default)]
pub struct Tally(BTreeMap<(String, u32), u64>);

/// The outcome absent in a tally, where a refusal has its number and done is 0.
pub const NONE: u32 = 100;
/// Done in a tally, where a path leads to an entry that dangles, or a tree has more entries than rows.
pub const PART: u32 = 101;
/// Done in a tally, where the name that was asked about breaks a rule; its number is added.
pub const BROKEN: u32 = 110;
/// How many rules a name may break.
const RULES: u32 = 5;

impl Tally {
    pub fn add(&mut self, call: &Call, answer: Answer) {
        let outcome = match answer.outcome {
            ABSENT => NONE,
            DONE if Name::DIRECTORIES.contains(&call.name) && answer.b == 1 => PART,
            DONE if call.name == Name::Name && answer.a > 0 => BROKEN + answer.a,
            DONE => 0,
            _ => answer.number,
        };
        *self.0.entry((format!("{:?}", call.name), outcome)).or_default() += 1;
    }

    /// How often a call had an outcome.
    pub fn times(&self, name: Name, outcome: u32) -> u64 {
        self.0.get(&(format!("{name:?}"), outcome)).copied().unwrap_or(0)
    }

    /// Asserts that every outcome that these calls have was met.
    pub fn must_have_all(&self, names: &[Name]) {
        for &name in names {
            for outcome in outcomes(name) {
                let met = self.times(name, outcome) > 0;
                assert!(met, "{name:?} never had outcome {outcome}: {:?}", self.0);
            }
        }
    }
}

/// The refusals of a call in the order in which they are given.
pub fn refusals(name: Name) -> &'static [u32] {
    match name {
        Name::Check => &[1, 2, 4, 5],
        Name::NextFile => &[1, 2],
        Name::Read => &[1, 2, 3, 6, 4, 7],
        Name::Show | Name::ShowPair => &[1, 2, 6, 4, 7],
        Name::Description => &[1, 2, 3, 6, 4],
        Name::Extract => &[1, 2, 6, 4, 3],
        Name::Name => &[3],
        Name::LookUp | Name::Tree => &[1, 2, 3, 6, 11],
        Name::Create => &[1, 2, 4, 5, 8],
        Name::Write => &[1, 2, 3, 4, 5, 6, 7, 8],
        Name::Describe => &[1, 2, 3, 12, 4, 5, 6],
        Name::Destroy => &[1, 2, 4, 5, 6],
        Name::Repair => &[1, 2, 4, 9],
        _ => &[1, 10],
    }
}

fn outcomes(name: Name) -> Vec<u32> {
    let mut outcomes = refusals(name).to_vec();
    outcomes.push(0);
    if matches!(name, Name::NextFile | Name::Read | Name::Show | Name::ShowPair | Name::LookUp) {
        outcomes.push(NONE);
    }
    if Name::DIRECTORIES.contains(&name) {
        outcomes.push(PART);
    }
    if name == Name::Name {
        outcomes.extend((1..=RULES).map(|rule| BROKEN + rule));
    }
    outcomes
}

/// Whether an answer is this refusal.
pub fn is_refusal(answer: Answer, number: u32) -> bool {
    (answer.outcome, answer.number) == (REFUSED, number)
}
