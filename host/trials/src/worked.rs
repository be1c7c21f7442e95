//! The worked cases of tests/worked, run on the library or on the reference.

use crate::call::{on_library, on_reference, Name};
use crate::worked_file::{Case, Expected, Step};
use reference::tree::ROW;
use reference::{Answer, DONE};
use std::fmt::Write;

/// Which implementation a run of the cases asks.
#[derive(Clone, Copy, Debug, PartialEq, Eq)]
pub enum Side {
    Library,
    Reference,
}

/// What a run over the cases found. Each case is counted once.
#[derive(Clone, Debug, Default, PartialEq, Eq)]
pub struct Report {
    /// Cases that have calls, all of which went as worked out.
    pub passed: u32,
    pub failed: u32,
    /// A line for each call that went otherwise, and for each case without a call.
    pub complaints: String,
}

/// Makes the calls of every case on one side.
pub fn run(cases: &[Case], side: Side) -> Report {
    let mut report = Report::default();
    for case in cases {
        let complaints = run_case(case, side);
        match complaints.is_empty() {
            true => report.passed += 1,
            false => report.failed += 1,
        }
        for complaint in complaints {
            let _ = writeln!(report.complaints, "case {}: {complaint}", case.name);
        }
    }
    report
}

/// What is wrong with a case: nothing only if it has a call.
fn run_case(case: &Case, side: Side) -> Vec<String> {
    let mut image = vec![0; case.length];
    let (mut calls, mut complaints) = (0, Vec::new());
    for step in &case.steps {
        match step {
            Step::Put(at, bytes) => image[*at..][..bytes.len()].copy_from_slice(bytes),
            Step::Lay(laying) => laying.lay(&mut image),
            Step::Call(expected) => {
                calls += 1;
                let wrong = run_call(expected, side, &mut image);
                complaints.extend(wrong.map(|wrong| format!("line {}: {wrong}", expected.line)));
            }
        }
    }
    if calls == 0 {
        complaints.push("it has no call".to_string());
    }
    complaints
}

/// Makes a call; answers what is wrong with it.
fn run_call(expected: &Expected, side: Side, image: &mut [u8]) -> Option<String> {
    let mut buffer = expected.call.buffer.clone();
    let answer = match side {
        Side::Library => on_library(&expected.call, image, &[], &mut buffer),
        Side::Reference => on_reference(&expected.call, image, &[], &mut buffer),
    };
    difference(expected, answer, image, &buffer)
}

fn difference(expected: &Expected, answer: Answer, image: &[u8], buffer: &[u8]) -> Option<String> {
    let name = expected.call.name;
    if answer != expected.answer {
        return Some(format!("{name:?} answers {answer:?}, not {:?}", expected.answer));
    }
    if crc32fast::hash(image) != expected.image_crc {
        return Some(format!("{name:?} leaves another image"));
    }
    if expected.buffer_crc.is_some_and(|crc| crc != crc32fast::hash(buffer)) {
        return Some(format!("{name:?} leaves another buffer"));
    }
    if name == Name::Tree && filled(answer, buffer) != Some(&expected.rows) {
        return Some(format!("{name:?} leaves other rows"));
    }
    None
}

/// The rows that a tree has filled.
fn filled(answer: Answer, rows: &[u8]) -> Option<&[u8]> {
    let filled = if answer.outcome == DONE { answer.a as usize } else { 0 };
    rows.get(..ROW * filled)
}
