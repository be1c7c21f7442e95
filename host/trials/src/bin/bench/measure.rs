//! Times of parts that take turns, and the table they are printed in.

use std::time::Instant;

const ROUNDS: u32 = 15;

/// The least time of each of these, in seconds, over rounds in which they take turns, so that whatever else the machine
/// does falls on all of them. A part is repeated until it takes a measurable time.
pub fn least<const N: usize>(mut parts: [&mut dyn FnMut(); N]) -> [f64; N] {
    let mut times = [f64::INFINITY; N];
    let mut repeats = [1u32; N];
    for (part, repeat) in parts.iter_mut().zip(&mut repeats) {
        let start = Instant::now();
        part();
        *repeat = (0.002 / start.elapsed().as_secs_f64().max(1e-9)).clamp(1.0, 100_000.0) as u32;
    }
    for _ in 0..ROUNDS {
        for ((part, time), &repeat) in parts.iter_mut().zip(&mut times).zip(&repeats) {
            let start = Instant::now();
            (0..repeat).for_each(|_| part());
            *time = time.min(start.elapsed().as_secs_f64() / f64::from(repeat));
        }
    }
    times
}

/// The head of the table.
pub fn head() {
    println!("{:<26} {:>7} {:>9} {:<9} {:>9}", "call", "blocks", "library", "", "ratio");
}

/// A line of it: the library's time, and that time as a multiple of another one.
pub fn row(what: &str, size: &str, ours: f64, unit: &str, against: &str, theirs: f64) {
    println!("{what:<26} {size:>7} {ours:>9.2} {unit:<9} {:>7.2} x {against}", ours / theirs);
}

/// One more ratio of the line before.
pub fn ratio(ratio: f64, against: &str) {
    println!("{:<26} {:>7} {:>9} {:<9} {ratio:>7.2} x {against}", "", "", "", "");
}
