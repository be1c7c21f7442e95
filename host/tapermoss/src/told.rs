//! What a command has to say: a text for a person, or one JSON object for a program, and the exit status.

use crate::outcome::Outcome;
use crate::output;
use crate::problem::Problem;
use perq::NameFault;
use serde_json::{json, Value};
use std::process::ExitCode;

/// All that a command says.
pub struct Told {
    pub outcome: Outcome,
    /// Why it was not done, or what is worst in what it looked at.
    pub problem: Option<Problem>,
    /// What goes to standard output, unless JSON is asked for.
    pub out: Vec<u8>,
    /// What goes to standard error, a line each.
    pub aside: Vec<String>,
    /// The command's own fields of the JSON object.
    pub fields: Value,
}

impl Told {
    /// A command that has done what it was asked.
    pub fn done(text: impl Into<Vec<u8>>, fields: Value) -> Told {
        Told { outcome: Outcome::Done, problem: None, out: text.into(), aside: Vec::new(), fields }
    }

    /// The object: `outcome`, `number`, `block` and `sentence` always, the last three null where there is nothing to say.
    fn as_json(&self) -> Value {
        joined(reported(self.outcome, self.problem.as_ref()), &self.fields)
    }

    /// Says it; answers the exit status.
    pub fn say(&self, as_json: bool) -> ExitCode {
        self.aside.iter().for_each(|line| output::aside(line));
        let written = if as_json {
            output::bytes(format!("{:#}\n", self.as_json()).as_bytes())
        } else {
            output::bytes(&self.out)
        };
        match written {
            Ok(()) => ExitCode::from(self.outcome.status()),
            Err(error) => {
                output::aside(&format!("tapermoss: cannot write to standard output: {error}"));
                ExitCode::from(Outcome::Unreadable.status())
            }
        }
    }
}

impl From<Problem> for Told {
    fn from(problem: Problem) -> Told {
        Told {
            outcome: problem.outcome,
            out: Vec::new(),
            aside: vec![format!("tapermoss: {}", problem.sentence)],
            fields: json!({}),
            problem: Some(problem),
        }
    }
}

/// The four fields that every object has: of a command, of an image or of a partition. Under number 12 it has two more.
pub fn reported(outcome: Outcome, problem: Option<&Problem>) -> Value {
    let four = json!({
        "outcome": outcome.name(),
        "number": problem.and_then(|problem| problem.number),
        "block": problem.and_then(|problem| problem.block),
        "sentence": problem.map(|problem| &problem.sentence),
    });
    match problem.and_then(|problem| problem.name) {
        Some(fault) => joined(four, &of_name(Some(fault))),
        None => four,
    }
}

/// Which rule a name breaks and where; null where it breaks none.
pub fn of_name(fault: Option<NameFault>) -> Value {
    json!({"name_rule": fault.map(NameFault::rule), "name_place": fault.map(NameFault::place)})
}

/// An object with the fields of another one too.
pub fn joined(mut object: Value, other: &Value) -> Value {
    if let Value::Object(fields) = other {
        fields.iter().for_each(|(name, value)| object[name] = value.clone());
    }
    object
}

/// A number of things.
pub fn counted(number: u32, thing: &str) -> String {
    format!("{number} {thing}{}", if number == 1 { "" } else { "s" })
}
