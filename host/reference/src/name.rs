//! Request 5: the names that describe takes. A name stands in words 11-51 of a description, length byte
//! first; the bytes behind its length are no part of it. Only describe judges names: every other call
//! takes what is on the disk.

use crate::answer::{settle, Answer, Refusal};
use crate::directory::JOINT;
use crate::file::DESCRIPTION;

/// The byte of a description that has the length; the characters follow it.
pub const LENGTH: usize = 22;
pub const CHARACTERS: usize = LENGTH + 1;
/// How many characters a good name has at most. One more would fit.
pub const LONGEST: usize = 80;

/// What makes a name bad, by the number that the call `name` has for it.
#[derive(Clone, Copy, Debug, PartialEq, Eq)]
pub enum Fault {
    Length = 1,
    Control = 2,
    /// "<", "/" or ":".
    Reserved = 3,
    FinalJoint = 4,
    /// ">.>" or ">..>".
    Dots = 5,
}

/// The first fault of the name in 104 bytes, and its place counted from 1; the place of a wrong length
/// is 0.
pub fn fault(description: &[u8]) -> Option<(Fault, u32)> {
    let length = usize::from(description[LENGTH]);
    if length == 0 || length > LONGEST {
        return Some((Fault::Length, 0));
    }
    let characters = &description[CHARACTERS..][..length];
    let at = |i: usize| Some((fault_at_first(&characters[i..])?, i as u32 + 1));
    (0..length).find_map(at)
}

/// The fault at the first of these characters, which are the end of a name.
fn fault_at_first(characters: &[u8]) -> Option<Fault> {
    match characters {
        [0..=31 | 127, ..] => Some(Fault::Control),
        [b'<' | b'/' | b':', ..] => Some(Fault::Reserved),
        [JOINT] => Some(Fault::FinalJoint),
        [JOINT, b'.', JOINT, ..] | [JOINT, b'.', b'.', JOINT, ..] => Some(Fault::Dots),
        _ => None,
    }
}

/// Refuses what describe is not to be given: a buffer of a wrong length by 3, a bad name by 12.
pub fn describable(buffer: &[u8]) -> Result<(), Refusal> {
    Refusal::unless(buffer.len() == DESCRIPTION, 3)?;
    Refusal::unless(fault(buffer).is_none(), 12)
}

/// What describe says of the name in this description: a = 0, b = 0 if it takes the name, otherwise
/// a = the fault and b = its place. (An addition to perq.h.)
pub fn name(buffer: &[u8]) -> Answer {
    let judged = || {
        Refusal::unless(buffer.len() == DESCRIPTION, 3)?;
        let (a, b) = fault(buffer).map_or((0, 0), |(fault, place)| (fault as u32, place));
        Ok(Answer::done(a, b, 0))
    };
    settle(judged())
}
