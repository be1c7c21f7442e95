//! bench: the library beside the reference, beside a plain C check, beside touching every header and beside memcpy, as
//! ratios of one run. `bench once WHAT M` makes calls of one kind only, for a tool that counts instructions around them.

mod checks;
mod conversions;
mod measure;
mod once;
mod others;

use std::env;

/// The drive that all is measured on.
const DRIVE: u32 = 2;
/// The sizes of the partitions, in blocks; the last one is the largest that a partition may have.
const SIZES: [u32; 3] = [1_000, 8_000, 32_767];

fn main() {
    let words: Vec<String> = env::args().skip(1).collect();
    match words.iter().map(String::as_str).collect::<Vec<_>>()[..] {
        [] => {}
        ["once", what, m] => return once::once(what, m.parse().expect("a number")),
        _ => panic!("usage: bench [once WHAT M], where WHAT is {}", once::WHATS),
    }
    measure::head();
    conversions::conversions();
    others::extracts();
    others::directories();
    others::repairs();
    checks::checks();
}
