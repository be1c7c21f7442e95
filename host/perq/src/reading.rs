//! The calls that change nothing.

use crate::refusal::{done, found};
use crate::{raw, Drive, Refusal, DATA, DESCRIPTION, RECORD};

/// What a sound partition holds.
#[derive(Clone, Copy, Debug, PartialEq, Eq)]
pub struct Summary {
    /// Its files.
    pub files: u32,
    /// The blocks that files own, the files' own blocks and pointer blocks among them.
    pub owned: u32,
    /// The blocks of the free chain.
    pub free: u32,
}

/// Whether the partition is sound, and what it holds.
///
/// ```
/// # let image = reference::sample::scattered(0, 40, 1, 39, &[3, 0], 7);
/// use perq::{check, Drive};
///
/// let summary = check(&image, Drive::Shugart12, 1)?;
/// assert_eq!((summary.files, summary.owned, summary.free), (2, 5, 33));
/// # Ok::<(), perq::Refusal>(())
/// ```
pub fn check(image: &[u8], drive: Drive, s: u32) -> Result<Summary, Refusal> {
    let answer = done(raw::check(image, drive.number(), s))?;
    Ok(Summary { files: answer.a, owned: answer.b, free: answer.c })
}

/// The lowest file above the block `after`, or none. It asks for a good partition, not for a sound one.
pub fn next_file(image: &[u8], drive: Drive, s: u32, after: u32) -> Result<Option<u32>, Refusal> {
    Ok(found(raw::next_file(image, drive.number(), s, after))?.map(|answer| answer.a))
}

/// All files of the partition in the order of their blocks; malformed ones are passed over.
///
/// ```
/// # let image = reference::sample::scattered(3, 40, 1, 39, &[3, 0], 7);
/// use perq::{files, Drive};
///
/// assert_eq!(files(&image, Drive::Floppy, 1)?.collect::<Vec<u32>>(), [2, 3]);
/// # Ok::<(), perq::Refusal>(())
/// ```
pub fn files(image: &[u8], drive: Drive, s: u32) -> Result<Files<'_>, Refusal> {
    let next = next_file(image, drive, s, 0)?;
    Ok(Files { image, drive, s, next })
}

/// What [`files`] answers.
#[derive(Clone, Debug)]
pub struct Files<'a> {
    image: &'a [u8],
    drive: Drive,
    s: u32,
    next: Option<u32>,
}

impl Iterator for Files<'_> {
    type Item = u32;

    fn next(&mut self) -> Option<u32> {
        let file = self.next?;
        self.next =
            next_file(self.image, self.drive, self.s, file).expect("the image has not changed");
        Some(file)
    }
}

/// Whether a file has the block that was asked for.
#[derive(Clone, Copy, Debug, PartialEq, Eq)]
pub enum Presence {
    /// It has.
    Present,
    /// It ends before; such a block reads as zeros.
    Absent,
}

/// Copies block `r` of file `f` to the buffer, or zeros if the file ends before it.
pub fn read(
    image: &[u8],
    drive: Drive,
    s: u32,
    f: u32,
    r: u32,
    buffer: &mut [u8; DATA],
) -> Result<Presence, Refusal> {
    let answer = found(raw::read(image, drive.number(), s, f, r, buffer))?;
    Ok(answer.map_or(Presence::Absent, |_| Presence::Present))
}

/// Block `r` of file `f` as a part of the image that was lent, 512 bytes; none if the file ends before it.
///
/// ```
/// # let image = reference::sample::scattered(0, 40, 1, 39, &[3, 0], 7);
/// use perq::{show, Drive};
///
/// let bytes = show(&image, Drive::Shugart12, 1, 2, 0)?.expect("the file has a block 0");
/// assert_eq!(bytes.len(), 512);
/// assert!(show(&image, Drive::Shugart12, 1, 2, 3)?.is_none());
/// # Ok::<(), perq::Refusal>(())
/// ```
pub fn show(image: &[u8], drive: Drive, s: u32, f: u32, r: u32) -> Result<Option<&[u8]>, Refusal> {
    let answer = found(raw::show(image, drive.number(), s, f, r))?;
    Ok(answer.map(|answer| part(image, answer)))
}

/// Which image of a pair an answer is from.
#[derive(Clone, Copy, Debug, PartialEq, Eq)]
pub enum Source {
    /// The repaired one, which is asked first.
    Repaired,
    /// The original, asked where the repaired one refuses.
    Original,
}

/// What [`show_pair`] found.
#[derive(Clone, Copy, Debug, PartialEq, Eq)]
pub struct Shown<'a> {
    /// The block, a part of the image that `from` names; none if the file ends before it.
    pub bytes: Option<&'a [u8]>,
    /// The image that answered.
    pub from: Source,
}

/// As [`show`] on the repaired image; where that is refused, as [`show`] on the original, its refusal included.
///
/// ```
/// # let original = reference::sample::scattered(0, 40, 1, 39, &[3, 0], 7);
/// use perq::{show_pair, Drive, Source};
///
/// let repaired = []; // none was made, so the original answers
/// let shown = show_pair(&original, &repaired, Drive::Shugart12, 1, 2, 0)?;
/// assert_eq!(shown.from, Source::Original);
/// assert_eq!(shown.bytes.map(<[u8]>::len), Some(512));
/// # Ok::<(), perq::Refusal>(())
/// ```
pub fn show_pair<'a>(
    original: &'a [u8],
    repaired: &'a [u8],
    drive: Drive,
    s: u32,
    f: u32,
    r: u32,
) -> Result<Shown<'a>, Refusal> {
    let answer = raw::show_pair(original, repaired, drive.number(), s, f, r);
    let (from, image) = match answer.c {
        1 => (Source::Repaired, repaired),
        _ => (Source::Original, original),
    };
    let bytes = found(answer)?.map(|answer| part(image, answer));
    Ok(Shown { bytes, from })
}

/// The part of an image that an answer of show names.
fn part(image: &[u8], answer: raw::Answer) -> &[u8] {
    let (from, length) = (answer.a as usize, answer.b as usize);
    &image[from..from + length]
}

/// The description of file `f`: 104 bytes that the PERQ's own software gave a meaning.
pub fn description(
    image: &[u8],
    drive: Drive,
    s: u32,
    f: u32,
) -> Result<[u8; DESCRIPTION], Refusal> {
    let mut buffer = [0; DESCRIPTION];
    done(raw::description(image, drive.number(), s, f, &mut buffer))?;
    Ok(buffer)
}

/// Copies the whole file to the buffer, which must have 512 bytes for each of its blocks; answers how many these are.
pub fn extract(
    image: &[u8],
    drive: Drive,
    s: u32,
    f: u32,
    buffer: &mut [u8],
) -> Result<u32, Refusal> {
    Ok(done(raw::extract(image, drive.number(), s, f, buffer))?.a)
}

/// The whole file.
///
/// ```
/// # let image = reference::sample::scattered(0, 40, 1, 39, &[3, 0], 7);
/// use perq::{show, whole_file, Drive};
///
/// let bytes = whole_file(&image, Drive::Shugart12, 1, 2)?;
/// assert_eq!(bytes.len(), 3 * 512);
/// assert_eq!(Some(&bytes[1024..]), show(&image, Drive::Shugart12, 1, 2, 2)?);
/// # Ok::<(), perq::Refusal>(())
/// ```
pub fn whole_file(image: &[u8], drive: Drive, s: u32, f: u32) -> Result<Vec<u8>, Refusal> {
    let mut buffer = vec![0; DATA * blocks_hint(image, f)];
    extract(image, drive, s, f, &mut buffer)?;
    Ok(buffer)
}

/// How many blocks file `f` says it has: the word that holds its last block's number, plus one. It only sizes a
/// buffer: for anything but a well-formed file the library refuses before it looks at the buffer.
fn blocks_hint(image: &[u8], f: u32) -> usize {
    const LAST_BLOCK: usize = 16 + 2 * 250;
    let at = (f as usize).saturating_mul(RECORD).saturating_add(LAST_BLOCK);
    let last = match image.get(at..at.saturating_add(2)) {
        Some(word) => i16::from_le_bytes([word[0], word[1]]),
        None => -1,
    };
    usize::try_from(i32::from(last) + 1).unwrap_or(0)
}
