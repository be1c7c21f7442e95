//! The six conversions, of every block of drive 2 and of every one of its addresses.

use crate::measure::{least, row};
use crate::DRIVE;
use perq::raw;
use std::hint::black_box;

/// A conversion of the library or of the reference: drive and number to an answer.
type Conversion<A> = fn(u32, u32) -> A;

/// Every block of the drive.
pub fn blocks() -> Vec<u32> {
    (0..perq::Drive::Micropolis35.blocks()).collect()
}

/// The PDA of every block of the drive.
pub fn pdas() -> Vec<u32> {
    blocks().into_iter().map(|b| reference::lbn_to_pda(DRIVE, b).a).collect()
}

pub fn conversions() {
    let (blocks, pdas) = (blocks(), pdas());
    let ldas: Vec<u32> = blocks.iter().map(|&b| reference::lbn_to_lda(DRIVE, b).a).collect();
    conversion("LBN to PDA", &blocks, raw::lbn_to_pda, reference::lbn_to_pda);
    conversion("PDA to LBN", &pdas, raw::pda_to_lbn, reference::pda_to_lbn);
    conversion("LBN to LDA", &blocks, raw::lbn_to_lda, reference::lbn_to_lda);
    conversion("LDA to LBN", &ldas, raw::lda_to_lbn, reference::lda_to_lbn);
    conversion("LBN to FileID", &blocks, raw::lbn_to_fileid, reference::lbn_to_fileid);
    conversion("FileID to LBN", &blocks, raw::fileid_to_lbn, reference::fileid_to_lbn);
}

/// One conversion of all these numbers, by calls that are not inlined on either side.
fn conversion(
    what: &str,
    numbers: &[u32],
    ours: Conversion<raw::Answer>,
    theirs: Conversion<reference::Answer>,
) {
    let mut library = || {
        for &number in numbers {
            black_box(black_box(ours)(DRIVE, number));
        }
    };
    let mut other = || {
        for &number in numbers {
            black_box(black_box(theirs)(DRIVE, number));
        }
    };
    let [a, b] = least([&mut library, &mut other]).map(|time| time / numbers.len() as f64 * 1e9);
    row(what, "", a, "ns", "reference", b);
}
