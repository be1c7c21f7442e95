//! The calls that change an image. Each makes a short list of stores, one whole record each, in a fixed order; a limit
//! cuts the list short, as a failing machine would, and a repair afterwards leaves every file as it was before the call or,
//! the one that was named, as it is after it.

use crate::refusal::done;
use crate::{lbn_to_lda, name, raw, Drive, Refusal, DATA, DESCRIPTION, RECORD};

/// The limit that cuts no call short.
pub const ALL: u32 = u32::MAX;

/// What [`create`] made.
#[derive(Clone, Copy, Debug, PartialEq, Eq)]
pub struct Created {
    /// The new file's block.
    pub file: u32,
    /// How many stores were made.
    pub made: u32,
}

/// An image of `n` records, zero but for the start and the end of one partition, blocks `s` to `e`. [`repair`] makes it a
/// fresh partition without files.
///
/// ```
/// use perq::{blank, check, create, repair, write, Drive, ALL};
///
/// let drive = Drive::Shugart12;
/// let mut image = blank(drive, 8, 1, 7)?;
/// repair(&mut image, drive, 1, ALL)?;
/// let file = create(&mut image, drive, 1, 0, ALL)?.file;
/// write(&mut image, drive, 1, file, 0, &[0x41; 512], ALL)?;
/// assert_eq!(check(&image, drive, 1)?.free, 4);
/// # Ok::<(), perq::Refusal>(())
/// ```
pub fn blank(drive: Drive, n: u32, s: u32, e: u32) -> Result<Vec<u8>, Refusal> {
    const PARTITION_START: usize = 16 + 2 * 118;
    const PARTITION_END: usize = 16 + 2 * 120;
    if n > drive.blocks() {
        return Err(Refusal::Image);
    }
    if s == 0 || s >= e || e >= n {
        return Err(Refusal::Partition);
    }
    let (start, end) = (lbn_to_lda(drive, s)?, lbn_to_lda(drive, e)?);
    let mut image = vec![0; RECORD * n as usize];
    let record = &mut image[RECORD * s as usize..][..RECORD];
    record[PARTITION_START..][..4].copy_from_slice(&start.to_le_bytes());
    record[PARTITION_END..][..4].copy_from_slice(&end.to_le_bytes());
    Ok(image)
}

/// Makes an empty file of a kind, with a description of zeros.
pub fn create(
    image: &mut [u8],
    drive: Drive,
    s: u32,
    kind: u16,
    limit: u32,
) -> Result<Created, Refusal> {
    let answer = done(raw::create(image, drive.number(), s, kind, limit))?;
    Ok(Created { file: answer.a, made: answer.made })
}

/// Replaces block `r` of file `f`, or appends it if it is the next after the last; answers how many stores were made.
pub fn write(
    image: &mut [u8],
    drive: Drive,
    s: u32,
    f: u32,
    r: u32,
    data: &[u8; DATA],
    limit: u32,
) -> Result<u32, Refusal> {
    Ok(done(raw::write(image, drive.number(), s, f, r, data, limit))?.made)
}

/// Sets the description of file `f`; answers how many stores were made. A bad name in it is refused wherever the partition is
/// a good one, and the refusal says which rule it breaks and where, as [`name`](crate::name) does.
///
/// ```
/// use perq::{blank, create, describe, repair, Drive, NameFault, Refusal, ALL, DESCRIPTION};
///
/// let drive = Drive::Floppy;
/// let mut image = blank(drive, 20, 1, 19)?;
/// repair(&mut image, drive, 1, ALL)?;
/// let file = create(&mut image, drive, 1, 0, ALL)?.file;
/// let mut description = [0; DESCRIPTION];
/// description[22..26].copy_from_slice(b"\x03a/b");
/// let refusal = describe(&mut image, drive, 1, file, &description, ALL).unwrap_err();
/// assert_eq!(refusal, Refusal::Name(NameFault::Reserved { place: 2, byte: b'/' }));
/// description[24] = b'>';
/// assert_eq!(describe(&mut image, drive, 1, file, &description, ALL), Ok(1));
/// # Ok::<(), Refusal>(())
/// ```
pub fn describe(
    image: &mut [u8],
    drive: Drive,
    s: u32,
    f: u32,
    description: &[u8; DESCRIPTION],
    limit: u32,
) -> Result<u32, Refusal> {
    let answer = raw::describe(image, drive.number(), s, f, description, limit);
    // Which rule the name breaks does not stand in the answer.
    if answer.number == 12 {
        name(description)?;
    }
    Ok(done(answer)?.made)
}

/// Gives the blocks of file `f` to the free chain; answers how many stores were made.
pub fn destroy(image: &mut [u8], drive: Drive, s: u32, f: u32, limit: u32) -> Result<u32, Refusal> {
    Ok(done(raw::destroy(image, drive.number(), s, f, limit))?.made)
}

/// Links every file and chains every free block anew, from the indexes alone; answers how many stores were made. It is
/// refused where a file is malformed: which blocks are free is then not known.
///
/// ```
/// use perq::{blank, check, create, repair, write, Drive, Refusal, ALL};
///
/// let drive = Drive::Floppy;
/// let mut image = blank(drive, 20, 1, 19)?;
/// repair(&mut image, drive, 1, ALL)?;
/// let file = create(&mut image, drive, 1, 0, ALL)?.file;
/// write(&mut image, drive, 1, file, 0, &[7; 512], 2)?; // cut after two stores of four
/// assert_eq!(check(&image, drive, 1), Err(Refusal::Unsound));
/// repair(&mut image, drive, 1, ALL)?;
/// assert_eq!(check(&image, drive, 1)?.owned, 2);
/// # Ok::<(), Refusal>(())
/// ```
pub fn repair(image: &mut [u8], drive: Drive, s: u32, limit: u32) -> Result<u32, Refusal> {
    Ok(done(raw::repair(image, drive.number(), s, limit))?.made)
}
