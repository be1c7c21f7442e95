//! worked FILE..: runs the worked cases of the files on the library, and on the reference that the tests compare it with. The
//! last line is 'N passed, M failed', counted in cases of both runs over all files. A case without a call fails, and a file
//! that cannot be read, or has a line that is not understood or no case, is one failure.

use std::process::ExitCode;
use trials::worked::{run, Side};
use trials::worked_file::{parse, Case};

/// Runs all cases on one side; answers how many passed and failed.
fn told(cases: &[Case], side: Side) -> (u32, u32) {
    let report = run(cases, side);
    print!("{}", report.complaints);
    println!("{side:?}: {} cases passed, {} failed", report.passed, report.failed);
    (report.passed, report.failed)
}

/// The cases of a file, or why there are none to run.
fn cases_of(path: &str) -> Result<Vec<Case>, String> {
    parse(&std::fs::read_to_string(path).map_err(|problem| problem.to_string())?)
}

/// Runs a file on both sides; answers how many cases passed and failed.
fn both_sides(path: &str) -> (u32, u32) {
    println!("{path}");
    match cases_of(path) {
        Ok(cases) => {
            let (library, reference) = (told(&cases, Side::Library), told(&cases, Side::Reference));
            (library.0 + reference.0, library.1 + reference.1)
        }
        Err(problem) => {
            println!("{problem}");
            (0, 1)
        }
    }
}

fn main() -> ExitCode {
    let paths: Vec<String> = std::env::args().skip(1).collect();
    assert!(!paths.is_empty(), "usage: worked FILE..");
    let counts: Vec<(u32, u32)> = paths.iter().map(|path| both_sides(path)).collect();
    let (passed, failed): (u32, u32) =
        (counts.iter().map(|count| count.0).sum(), counts.iter().map(|count| count.1).sum());
    println!("{passed} passed, {failed} failed");
    ExitCode::from(u8::from(failed > 0))
}
