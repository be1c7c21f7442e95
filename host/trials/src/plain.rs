//! The plain C check of plain/check.c, which is neither proved nor part of the library: a measure for the library's.

use crate::call::same_fields;
use perq::raw;
use reference::Answer;

extern "C" {
    fn plain_check(image: *const u8, length: usize, drive: u32, s: u32) -> raw::Answer;
}

/// What `raw::check` answers, by the plain C check.
pub fn check(image: &[u8], drive: u32, s: u32) -> raw::Answer {
    // SAFETY: it reads these bytes and no others, for any drive and s, and keeps no pointer.
    unsafe { plain_check(image.as_ptr(), image.len(), drive, s) }
}

/// The reference's answer, which the plain C check must give as well.
///
/// # Panics
/// If it gives another one.
pub fn agreed(image: &[u8], drive: u32, s: u32) -> Answer {
    let answer = reference::check(image, drive, s);
    let ours = same_fields(check(image, drive, s));
    assert_eq!(ours, answer, "check on drive {drive} at {s} of {} bytes", image.len());
    answer
}
