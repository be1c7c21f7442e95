//! Check of the shapes of partition: beside the reference, beside the plain C check, and beside touching the headers.

use crate::measure::least;
use crate::{DRIVE, SIZES};
use perq::raw;
use std::hint::black_box;
use trials::call::same_fields;
use trials::plain;
use trials::shapes::Shape;

/// A table of its own: the library's time for a block, and how many times as long it is as each of the others.
pub fn checks() {
    println!("\n{:<26} {:>7} {:>9} {:<9} {:>27}", "check of", "blocks", "library", "", "ratio to");
    println!("{:<54} {:>9} {:>8} {:>9}", "", "reference", "plain C", "touching");
    for shape in Shape::ALL {
        for m in SIZES {
            let [a, b, c, d] = times(shape, m);
            print!("{:<26} {m:>7} {a:>9.2} {:<9}", shape.told(), "ns/block");
            println!(" {:>9.2} {:>8.2} {:>9.2}", a / b, a / c, a / d);
        }
    }
}

/// Nanoseconds a block: of the library, the reference, the plain C check, and touching the headers.
fn times(shape: Shape, m: u32) -> [f64; 4] {
    let image = shape.image(DRIVE, m);
    must_be_sound(&image);
    let mut ours = || {
        black_box(raw::check(black_box(&image), DRIVE, 1));
    };
    let mut theirs = || {
        black_box(reference::check(black_box(&image), DRIVE, 1));
    };
    let mut in_c = || {
        black_box(plain::check(black_box(&image), DRIVE, 1));
    };
    let mut touching = || {
        black_box(touch(black_box(&image)));
    };
    least([&mut ours, &mut theirs, &mut in_c, &mut touching]).map(|time| time / f64::from(m) * 1e9)
}

/// All three sides answer that the partition is sound, and the same of it.
fn must_be_sound(image: &[u8]) {
    let answer = reference::check(image, DRIVE, 1);
    assert_eq!(answer.outcome, reference::DONE, "a sound partition");
    assert_eq!(same_fields(raw::check(image, DRIVE, 1)), answer, "the library's answer");
    assert_eq!(same_fields(plain::check(image, DRIVE, 1)), answer, "the plain C check's answer");
}

/// Reads the 16 header bytes of each record.
fn touch(image: &[u8]) -> u64 {
    let half = |record: &[u8], from: usize| {
        u64::from_le_bytes(record[from..from + 8].try_into().expect("8 bytes"))
    };
    image.chunks_exact(528).fold(0, |sum, record| sum ^ half(record, 0) ^ half(record, 8))
}
