//! What ends a command, or the work on one image or partition, before it is done: the outcome, the library's number, block
//! and fault of a name where it has refused, and the sentence that it is told in.

use crate::names::shown;
use crate::outcome::Outcome;
use perq::{NameFault, Refusal};
use std::io;
use std::path::Path;

/// Why something was not done.
#[derive(Clone, Debug)]
pub struct Problem {
    pub outcome: Outcome,
    pub number: Option<u32>,
    pub block: Option<u32>,
    /// What is wrong with the name, under number 12.
    pub name: Option<NameFault>,
    pub sentence: String,
}

impl Problem {
    /// One that the library has no number for.
    pub fn new(outcome: Outcome, sentence: String) -> Problem {
        Problem { outcome, number: None, block: None, name: None, sentence }
    }

    /// A refusal, in words that say more than the library's own.
    pub fn refused(refusal: Refusal, told: &str) -> Problem {
        let block = match refusal {
            Refusal::Malformed { block } | Refusal::TooDeep { block } => Some(block),
            _ => None,
        };
        let name = match refusal {
            Refusal::Name(fault) => Some(fault),
            _ => None,
        };
        let number = refusal.number();
        let sentence = format!("refused ({number}): {told}");
        Problem { outcome: Outcome::Refused, number: Some(number), block, name, sentence }
    }

    pub fn usage(sentence: impl Into<String>) -> Problem {
        Problem::new(Outcome::WrongUse, sentence.into())
    }

    /// A failure of the system over a file.
    pub fn system(deed: &str, path: &Path, error: &io::Error) -> Problem {
        Problem::new(Outcome::Unreadable, format!("cannot {deed} {}: {error}", shown(path)))
    }

    /// The same, as what a person must decide.
    pub fn set_aside(self) -> Problem {
        Problem { outcome: Outcome::SetAside, ..self }
    }
}

impl From<Refusal> for Problem {
    fn from(refusal: Refusal) -> Problem {
        let sentence = refusal.to_string();
        Problem { sentence, ..Problem::refused(refusal, "") }
    }
}
