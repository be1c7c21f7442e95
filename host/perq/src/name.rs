//! The name in a description: whether `describe` takes it, and which rule it breaks where.

use crate::{raw, DESCRIPTION};
use std::error::Error;
use std::fmt;

/// The byte of a description that has the length of the name; the character at place `k`, counted from 1, is `k` bytes on.
const NAME_AT: usize = 2 * 11;
/// The most characters of a name, for the sentence; that there are no more is for the library to say.
const LONGEST: usize = 80;

/// What is wrong with a name: the rule that it breaks, and what breaks it. A place is that of a character, counted from 1, and
/// the first at which the name breaks a rule.
///
/// ```
/// use perq::NameFault;
///
/// let fault = NameFault::Reserved { place: 5, byte: b'<' };
/// assert_eq!((fault.rule(), fault.place()), (3, 5));
/// assert_eq!(fault.to_string(), "character 5 of the name is \"<\", which no name may have");
/// ```
#[derive(Clone, Copy, Debug, PartialEq, Eq, Hash)]
pub enum NameFault {
    /// 1: it has no characters, or more than 80. None of them was looked at.
    Length {
        /// How many it has.
        length: usize,
    },
    /// 2: a control character, below 32 or 127.
    Control {
        /// Where it stands.
        place: u32,
        /// The character.
        byte: u8,
    },
    /// 3: `<`, `/` or `:`.
    Reserved {
        /// Where it stands.
        place: u32,
        /// The character.
        byte: u8,
    },
    /// 4: the last character is `>`.
    FinalJoint {
        /// Where it stands: the name's length.
        place: u32,
    },
    /// 5: `>.>` or `>..>`.
    Dots {
        /// Where its first `>` stands.
        place: u32,
        /// How many dots it has, 1 or 2.
        dots: usize,
    },
}

impl NameFault {
    /// The number of the rule, 1 to 5.
    pub fn rule(self) -> u32 {
        match self {
            NameFault::Length { .. } => 1,
            NameFault::Control { .. } => 2,
            NameFault::Reserved { .. } => 3,
            NameFault::FinalJoint { .. } => 4,
            NameFault::Dots { .. } => 5,
        }
    }

    /// The place of the character that breaks it, counted from 1; 0 for the length.
    pub fn place(self) -> u32 {
        match self {
            NameFault::Length { .. } => 0,
            NameFault::Control { place, .. }
            | NameFault::Reserved { place, .. }
            | NameFault::FinalJoint { place }
            | NameFault::Dots { place, .. } => place,
        }
    }

    /// The fault that the library has found in a description.
    fn found(rule: u32, place: u32, description: &[u8; DESCRIPTION]) -> NameFault {
        let behind = &description[NAME_AT + place as usize..];
        let byte = behind[0];
        match rule {
            1 => NameFault::Length { length: usize::from(byte) },
            2 => NameFault::Control { place, byte },
            3 => NameFault::Reserved { place, byte },
            4 => NameFault::FinalJoint { place },
            5 => {
                let dots = behind[1..].iter().take_while(|&&byte| byte == b'.').count();
                NameFault::Dots { place, dots }
            }
            other => panic!("the library answered with rule {other}"),
        }
    }
}

impl fmt::Display for NameFault {
    fn fmt(&self, out: &mut fmt::Formatter<'_>) -> fmt::Result {
        match *self {
            NameFault::Length { length: 0 } => out.write_str("the name has no characters"),
            NameFault::Length { length } => {
                write!(out, "the name has {length} characters, and {LONGEST} is the most")
            }
            NameFault::Control { place, byte } => {
                write!(out, "character {place} of the name is a control character ({byte})")
            }
            NameFault::Reserved { place, byte } => {
                let letter = char::from(byte);
                write!(out, "character {place} of the name is \"{letter}\", which no name may have")
            }
            NameFault::FinalJoint { .. } => out.write_str("the name ends in \">\""),
            NameFault::Dots { place, dots } => {
                write!(out, "\">{:.<dots$}>\" stands at character {place} of the name", "")
            }
        }
    }
}

impl Error for NameFault {}

/// Whether [`describe`](crate::describe) takes the name in a description: words 11 to 51, their first byte being its length.
/// It is the same rule, asked of the library without an image.
///
/// ```
/// use perq::{name, NameFault, DESCRIPTION};
///
/// let named = |name: &str| {
///     let mut description = [0; DESCRIPTION];
///     description[22] = name.len() as u8;
///     description[23..][..name.len()].copy_from_slice(name.as_bytes());
///     description
/// };
/// assert_eq!(name(&named(">letters>first.text")), Ok(()));
/// assert_eq!(name(&named("")), Err(NameFault::Length { length: 0 }));
/// assert_eq!(name(&named("sys:first")), Err(NameFault::Reserved { place: 4, byte: b':' }));
/// let fault = name(&named("letters>..>first")).unwrap_err();
/// assert_eq!(fault.to_string(), "\">..>\" stands at character 8 of the name");
/// ```
///
/// # Panics
/// On an answer that the interface does not have.
pub fn name(description: &[u8; DESCRIPTION]) -> Result<(), NameFault> {
    let answer = raw::name(description);
    assert_eq!(answer.outcome, raw::DONE, "a description has {DESCRIPTION} bytes");
    match answer.a {
        0 => Ok(()),
        rule => Err(NameFault::found(rule, answer.b, description)),
    }
}
