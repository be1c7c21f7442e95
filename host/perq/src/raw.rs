//! The calls of `include/perq.h`, one for one: numbers in, the seven fields of the answer out. This is the only
//! module with `unsafe`. It adds nothing but the step from a slice to a pointer and a length; the rest of the crate
//! gives the answers types. No function takes a pointer: what a call changes is a `&mut` slice, so it overlaps with nothing
//! else that the call is lent.

/// What a call answers, field by field; a field that a call does not speak of is 0.
#[repr(C)]
#[derive(Clone, Copy, Debug, Default, PartialEq, Eq)]
pub struct Answer {
    /// [`DONE`], [`ABSENT`] or [`REFUSED`].
    pub outcome: u32,
    /// When refused: why, from 1 to 12.
    pub number: u32,
    /// When refused by 4: the LBN of the malformed file block; by 11: that of the directory of the tenth level.
    pub block: u32,
    /// Changing calls: how many stores were made.
    pub made: u32,
    /// The first value of the call.
    pub a: u32,
    /// The second value of the call.
    pub b: u32,
    /// The third value of the call.
    pub c: u32,
}

/// The outcome of a call that did what it was asked.
pub const DONE: u32 = 0;
/// The outcome of a call that found nothing there.
pub const ABSENT: u32 = 1;
/// The outcome of a call that refused; `number` says why.
pub const REFUSED: u32 = 2;

extern "C" {
    fn perq_lbn_to_pda(drive: u32, lbn: u32) -> Answer;
    fn perq_pda_to_lbn(drive: u32, pda: u32) -> Answer;
    fn perq_lbn_to_lda(drive: u32, lbn: u32) -> Answer;
    fn perq_lda_to_lbn(drive: u32, lda: u32) -> Answer;
    fn perq_lbn_to_fileid(drive: u32, lbn: u32) -> Answer;
    fn perq_fileid_to_lbn(drive: u32, fileid: u32) -> Answer;
    fn perq_check(image: *const u8, length: usize, drive: u32, s: u32) -> Answer;
    fn perq_next_file(image: *const u8, length: usize, drive: u32, s: u32, after: u32) -> Answer;
    fn perq_read(
        image: *const u8,
        length: usize,
        drive: u32,
        s: u32,
        f: u32,
        r: u32,
        buffer: *mut u8,
        buffer_length: usize,
    ) -> Answer;
    fn perq_show(image: *const u8, length: usize, drive: u32, s: u32, f: u32, r: u32) -> Answer;
    fn perq_show_pair(
        original: *const u8,
        original_length: usize,
        repaired: *const u8,
        repaired_length: usize,
        drive: u32,
        s: u32,
        f: u32,
        r: u32,
    ) -> Answer;
    fn perq_description(
        image: *const u8,
        length: usize,
        drive: u32,
        s: u32,
        f: u32,
        buffer: *mut u8,
        buffer_length: usize,
    ) -> Answer;
    fn perq_extract(
        image: *const u8,
        length: usize,
        drive: u32,
        s: u32,
        f: u32,
        buffer: *mut u8,
        buffer_length: usize,
    ) -> Answer;
    fn perq_name(buffer: *const u8, buffer_length: usize) -> Answer;
    fn perq_look_up(
        image: *const u8,
        length: usize,
        drive: u32,
        s: u32,
        rule: *const u8,
        rule_length: usize,
        path: *const u8,
        path_length: usize,
    ) -> Answer;
    fn perq_tree(
        image: *const u8,
        length: usize,
        drive: u32,
        s: u32,
        rule: *const u8,
        rule_length: usize,
        rows: *mut u8,
        rows_length: usize,
    ) -> Answer;
    fn perq_create(
        image: *mut u8,
        length: usize,
        drive: u32,
        s: u32,
        kind: u16,
        limit: u32,
    ) -> Answer;
    fn perq_write(
        image: *mut u8,
        length: usize,
        drive: u32,
        s: u32,
        f: u32,
        r: u32,
        buffer: *const u8,
        buffer_length: usize,
        limit: u32,
    ) -> Answer;
    fn perq_describe(
        image: *mut u8,
        length: usize,
        drive: u32,
        s: u32,
        f: u32,
        buffer: *const u8,
        buffer_length: usize,
        limit: u32,
    ) -> Answer;
    fn perq_destroy(
        image: *mut u8,
        length: usize,
        drive: u32,
        s: u32,
        f: u32,
        limit: u32,
    ) -> Answer;
    fn perq_repair(image: *mut u8, length: usize, drive: u32, s: u32, limit: u32) -> Answer;
}

// SAFETY, for every `unsafe` below: the library keeps no pointer, and reads and writes only the bytes that it is lent.
// A slice lends just these bytes for the time of the call, and a `&mut` one lends them to nobody else, so nothing that is
// written to overlaps with anything else. The address of a slice without bytes is one that the library takes but never reads.

/// The PDA of a block: `a`.
pub fn lbn_to_pda(drive: u32, lbn: u32) -> Answer {
    unsafe { perq_lbn_to_pda(drive, lbn) }
}

/// The block of a PDA: `a`.
pub fn pda_to_lbn(drive: u32, pda: u32) -> Answer {
    unsafe { perq_pda_to_lbn(drive, pda) }
}

/// The LDA of a block: `a`.
pub fn lbn_to_lda(drive: u32, lbn: u32) -> Answer {
    unsafe { perq_lbn_to_lda(drive, lbn) }
}

/// The block of an LDA: `a`.
pub fn lda_to_lbn(drive: u32, lda: u32) -> Answer {
    unsafe { perq_lda_to_lbn(drive, lda) }
}

/// The FileID of a block: `a`.
pub fn lbn_to_fileid(drive: u32, lbn: u32) -> Answer {
    unsafe { perq_lbn_to_fileid(drive, lbn) }
}

/// The block of a FileID: `a`.
pub fn fileid_to_lbn(drive: u32, fileid: u32) -> Answer {
    unsafe { perq_fileid_to_lbn(drive, fileid) }
}

/// Whether the partition is sound: `a` files, `b` owned blocks, `c` free ones.
pub fn check(image: &[u8], drive: u32, s: u32) -> Answer {
    unsafe { perq_check(image.as_ptr(), image.len(), drive, s) }
}

/// The lowest file above `after`: `a`.
pub fn next_file(image: &[u8], drive: u32, s: u32, after: u32) -> Answer {
    unsafe { perq_next_file(image.as_ptr(), image.len(), drive, s, after) }
}

/// Copies block r of a file to the buffer of 512 bytes; zeros when absent.
pub fn read(image: &[u8], drive: u32, s: u32, f: u32, r: u32, buffer: &mut [u8]) -> Answer {
    unsafe {
        perq_read(image.as_ptr(), image.len(), drive, s, f, r, buffer.as_mut_ptr(), buffer.len())
    }
}

/// Where block r of a file lies in the image: `b` bytes from `a` on.
pub fn show(image: &[u8], drive: u32, s: u32, f: u32, r: u32) -> Answer {
    unsafe { perq_show(image.as_ptr(), image.len(), drive, s, f, r) }
}

/// As [`show`] on the repaired image (`c` = 1) or, where that is refused, on the original (`c` = 2).
pub fn show_pair(original: &[u8], repaired: &[u8], drive: u32, s: u32, f: u32, r: u32) -> Answer {
    unsafe {
        perq_show_pair(
            original.as_ptr(),
            original.len(),
            repaired.as_ptr(),
            repaired.len(),
            drive,
            s,
            f,
            r,
        )
    }
}

/// Copies the description of a file to the buffer of 104 bytes.
pub fn description(image: &[u8], drive: u32, s: u32, f: u32, buffer: &mut [u8]) -> Answer {
    unsafe {
        perq_description(
            image.as_ptr(),
            image.len(),
            drive,
            s,
            f,
            buffer.as_mut_ptr(),
            buffer.len(),
        )
    }
}

/// Copies all `a` blocks of a file to the buffer of 512 bytes for each.
pub fn extract(image: &[u8], drive: u32, s: u32, f: u32, buffer: &mut [u8]) -> Answer {
    unsafe {
        perq_extract(image.as_ptr(), image.len(), drive, s, f, buffer.as_mut_ptr(), buffer.len())
    }
}

/// What describe says of the name in a description, the 104 bytes: `a` is 0 if it takes it, otherwise the rule that the name
/// breaks, from 1 to 5, at the place `b`.
pub fn name(buffer: &[u8]) -> Answer {
    unsafe { perq_name(buffer.as_ptr(), buffer.len()) }
}

/// What a path leads to: the file `a`, or, where `b` is 1, an entry that names no file. The rule has 26 bytes or none.
pub fn look_up(image: &[u8], drive: u32, s: u32, rule: &[u8], path: &[u8]) -> Answer {
    unsafe {
        perq_look_up(
            image.as_ptr(),
            image.len(),
            drive,
            s,
            rule.as_ptr(),
            rule.len(),
            path.as_ptr(),
            path.len(),
        )
    }
}

/// Fills a row of 32 bytes for each entry of the tree, `a` of them; `b` is 1 where no row was left for the next entry.
/// The rule has 26 bytes or none.
pub fn tree(image: &[u8], drive: u32, s: u32, rule: &[u8], rows: &mut [u8]) -> Answer {
    unsafe {
        perq_tree(
            image.as_ptr(),
            image.len(),
            drive,
            s,
            rule.as_ptr(),
            rule.len(),
            rows.as_mut_ptr(),
            rows.len(),
        )
    }
}

/// Makes an empty file: `a`.
pub fn create(image: &mut [u8], drive: u32, s: u32, kind: u16, limit: u32) -> Answer {
    unsafe { perq_create(image.as_mut_ptr(), image.len(), drive, s, kind, limit) }
}

/// Replaces block r of a file, or appends it, by the 512 bytes.
pub fn write(
    image: &mut [u8],
    drive: u32,
    s: u32,
    f: u32,
    r: u32,
    buffer: &[u8],
    limit: u32,
) -> Answer {
    unsafe {
        perq_write(
            image.as_mut_ptr(),
            image.len(),
            drive,
            s,
            f,
            r,
            buffer.as_ptr(),
            buffer.len(),
            limit,
        )
    }
}

/// Sets the description of a file to the 104 bytes.
pub fn describe(image: &mut [u8], drive: u32, s: u32, f: u32, buffer: &[u8], limit: u32) -> Answer {
    unsafe {
        perq_describe(
            image.as_mut_ptr(),
            image.len(),
            drive,
            s,
            f,
            buffer.as_ptr(),
            buffer.len(),
            limit,
        )
    }
}

/// Gives the blocks of a file back to the free chain.
pub fn destroy(image: &mut [u8], drive: u32, s: u32, f: u32, limit: u32) -> Answer {
    unsafe { perq_destroy(image.as_mut_ptr(), image.len(), drive, s, f, limit) }
}

/// Links the files and chains the free blocks anew.
pub fn repair(image: &mut [u8], drive: u32, s: u32, limit: u32) -> Answer {
    unsafe { perq_repair(image.as_mut_ptr(), image.len(), drive, s, limit) }
}
