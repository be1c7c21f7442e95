//! Calls of one kind on one image, for a tool that counts the instructions inside of them.

use crate::conversions::{blocks, pdas};
use crate::others::{one_file, two_thousand_entries, LAST_PATH};
use crate::DRIVE;
use perq::raw;
use std::hint::black_box;
use trials::plain;
use trials::shapes::Shape;

/// What can be asked for.
pub const WHATS: &str =
    "one, long, short, empty, free, repair, extract, tree, look_up, decode or encode";

/// Check is made by the library and by the plain C check, each once. Decode and encode go through the first m blocks of
/// the drive.
pub fn once(what: &str, m: u32) {
    match what {
        "one" => check(Shape::One, m),
        "long" => check(Shape::Long, m),
        "short" => check(Shape::Short, m),
        "empty" => check(Shape::Empty, m),
        "free" => check(Shape::Free, m),
        "decode" => convert(raw::pda_to_lbn, &pdas()[..m as usize]),
        "encode" => convert(raw::lbn_to_pda, &blocks()[..m as usize]),
        _ => println!("{:?}", other(what, m)),
    }
}

fn check(shape: Shape, m: u32) {
    let image = shape.image(DRIVE, m);
    println!("{:?}", raw::check(&image, DRIVE, 1));
    println!("{:?}", plain::check(&image, DRIVE, 1));
}

fn convert(by: fn(u32, u32) -> raw::Answer, numbers: &[u32]) {
    for &number in numbers {
        assert_eq!(black_box(by(DRIVE, number)).outcome, raw::DONE, "{number} converts");
    }
}

fn other(what: &str, m: u32) -> raw::Answer {
    let mut buffer = vec![0; 512 * m as usize];
    match what {
        "repair" => raw::repair(&mut Shape::Long.image(DRIVE, m), DRIVE, 1, u32::MAX),
        "extract" => raw::extract(&one_file(m), DRIVE, 1, 2, &mut buffer),
        "tree" => raw::tree(&two_thousand_entries(), DRIVE, 1, &[], &mut buffer[..32 * m as usize]),
        "look_up" => raw::look_up(&two_thousand_entries(), DRIVE, 1, &[], LAST_PATH),
        other => panic!("{other}: it is {WHATS}"),
    }
}
