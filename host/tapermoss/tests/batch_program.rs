//! The proved program crates/batch and the tool's `batch` make the same choice of each image. What the program writes is kept in
//! crates/batch/stdout, which `rt` holds it to; here that text is held to the tool and to the reference, and the images to
//! what makes them.

mod common;

use common::{tapermoss, Folder};
use reference::image::RECORD;
use reference::{Answer, DONE};
use std::collections::BTreeMap;
use std::fs;
use std::os::unix::fs::symlink;
use std::path::PathBuf;
use trials::batch_data::samples;

/// The image that the program is told of and that is not there.
const GONE: &str = "gone.img";

/// The images that the program refuses in words of its own, and what the tool, which has more outcomes and takes any number
/// of partitions, says of them.
const OWN_WORDS: [(&str, &str); 3] =
    [(GONE, "unreadable"), ("long.img", "refused"), ("two.img", "sound")];

fn is_own(name: &str) -> bool {
    OWN_WORDS.iter().any(|(own, _)| *own == name)
}

fn program(part: &str) -> PathBuf {
    PathBuf::from(concat!(env!("CARGO_MANIFEST_DIR"), "/../../crates/batch")).join(part)
}

fn text(part: &str) -> String {
    fs::read_to_string(program(part)).expect("a file of crates/batch")
}

/// The images that the program is told of, each with its drive.
fn told() -> Vec<(String, u32)> {
    let words: Vec<String> = text("args").lines().map(str::to_string).collect();
    words.chunks(2).map(|two| (two[0].clone(), two[1].parse().expect("a drive"))).collect()
}

/// A report's lines: the image, the outcome and the remark. A partition's own line is indented.
fn rows(report: &str) -> Vec<[String; 3]> {
    let table = report.lines().skip(1).take_while(|line| !line.is_empty());
    let table = table.filter(|line| !line.starts_with(' '));
    let columns = |line: &str| {
        let parts = line.split("  ").map(|part| part.trim().to_string());
        let parts: Vec<String> = parts.filter(|part| !part.is_empty()).collect();
        parts.try_into().expect("three columns")
    };
    table.map(columns).collect()
}

#[test]
fn the_images_are_what_makes_them() {
    let mut made: Vec<(String, u32)> = Vec::new();
    for sample in samples() {
        let stored = fs::read(program("data").join(sample.name)).expect("an image");
        assert!(stored == sample.bytes, "{}", sample.name);
        made.push((sample.name.to_string(), sample.drive));
    }
    assert_eq!(fs::read_dir(program("data")).expect("a folder").count(), made.len());
    let there: Vec<(String, u32)> = told().into_iter().filter(|(name, _)| name != GONE).collect();
    assert_eq!(there, made);
    assert_eq!(told().len(), made.len() + 1);
}

/// What the reference has of a partition's check.
fn held(answer: Answer) -> String {
    let ending = if answer.a == 1 { "" } else { "s" };
    format!("{} file{ending}, {} blocks owned, {} free", answer.a, answer.b, answer.c)
}

/// Outcome and remark by the reference; of a refusal, the number.
fn by_reference(mut image: Vec<u8>, drive: u32) -> (&'static str, String) {
    let check = |image: &[u8], s: u32| reference::check(image, drive, s);
    let blocks = (image.len() / RECORD) as u32;
    let good: Vec<u32> =
        (0..blocks).filter(|&s| ![1, 2].contains(&check(&image, s).number)).collect();
    let s = match good[..] {
        [] => 0,
        [s] => s,
        _ => return ("refused", String::new()),
    };
    let found = check(&image, s);
    match found.number {
        0 => ("sound", held(found)),
        4 => ("set aside", format!("refused (4): block {} is", found.block)),
        5 => match reference::repair(&mut image, drive, s, u32::MAX) {
            done if done.outcome == DONE => {
                ("repaired", format!("{} stores: {}", done.made, held(check(&image, s))))
            }
            refused => ("refused", format!("refused ({}): ", refused.number)),
        },
        number => ("refused", format!("refused ({number}): ")),
    }
}

#[test]
fn the_reference_says_what_the_program_writes() {
    let rows = rows(&text("stdout"));
    for sample in samples() {
        let row = rows.iter().find(|row| row[0] == sample.name).expect("a line for each image");
        let (outcome, remark) = by_reference(sample.bytes, sample.drive);
        assert_eq!(row[1], outcome, "{}", sample.name);
        assert!(is_own(sample.name) || row[2].starts_with(&remark), "{row:?}: {remark}");
    }
}

/// The tool's report on the images of one drive. The program repairs also where no file is left, which the tool is asked
/// for by --force.
fn report(drive: u32) -> String {
    let folder = Folder::new();
    for (name, _) in told().iter().filter(|(_, of)| *of == drive) {
        if name == GONE {
            symlink("nowhere", folder.path(name)).expect("a link");
        } else {
            folder.put(name, &fs::read(program("data").join(name)).expect("an image"));
        }
    }
    let place = folder.text("");
    let output = tapermoss(&["batch", &place, "--drive", &drive.to_string(), "--force"]);
    let worst = if drive == 3 { 5 } else { 1 };
    assert_eq!(output.status.code(), Some(worst), "{output:?}");
    String::from_utf8(output.stdout).expect("text")
}

/// A remark without what only one of the two says: where the repaired image is, or how many stores it took.
fn common_part(row: &[String; 3]) -> &str {
    match row[1].as_str() {
        "repaired" => row[2].split_once(": ").expect("what it holds").1,
        _ => &row[2],
    }
}

#[test]
fn the_tool_makes_the_same_choice_of_each_image() {
    let (stored, reports) = (text("stdout"), [0, 3].map(report));
    let by_tool: BTreeMap<String, [String; 3]> =
        reports.iter().flat_map(|report| rows(report)).map(|row| (row[0].clone(), row)).collect();
    let by_program = rows(&stored);
    assert_eq!(by_program.len(), by_tool.len());
    assert!(by_program.iter().map(|row| &row[0]).eq(told().iter().map(|(name, _)| name)));
    for row in by_program.iter().filter(|row| !is_own(&row[0])) {
        let other = &by_tool[&row[0]];
        assert_eq!(row[1], other[1], "{row:?}");
        assert_eq!(common_part(row), common_part(other), "{row:?}");
    }
    for (name, outcome) in OWN_WORDS {
        assert_eq!(by_tool[name][1], outcome, "{name}");
    }
}

#[test]
fn the_program_counts_what_it_writes() {
    let stored = text("stdout");
    let rows = rows(&stored);
    let count = |outcome: &str| rows.iter().filter(|row| row[1] == outcome).count();
    let counts = ["sound", "repaired", "set aside", "refused"]
        .map(|outcome| format!("{} {outcome}", count(outcome)));
    assert_eq!(stored.lines().last(), Some(counts.join(", ").as_str()));
}
