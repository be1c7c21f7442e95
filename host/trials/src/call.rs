//! A call of perq.h as a value: it is drawn at random, read from a file or written out in a test, and then made on the
//! library or on the reference.

use perq::raw;
use reference::Answer;

/// The calls, in the order of perq.h.
#[derive(Clone, Copy, Debug, PartialEq, Eq, Hash)]
pub enum Name {
    LbnToPda,
    PdaToLbn,
    LbnToLda,
    LdaToLbn,
    LbnToFileid,
    FileidToLbn,
    Check,
    NextFile,
    Read,
    Show,
    ShowPair,
    Description,
    Extract,
    /// perq_name: what describe says of a name.
    Name,
    LookUp,
    Tree,
    Create,
    Write,
    Describe,
    Destroy,
    Repair,
}

/// What a call does with an image: it takes none but a number or a description, reads one or changes one.
#[derive(Clone, Copy, Debug, PartialEq, Eq)]
pub enum Group {
    Conversions,
    Names,
    Reading,
    Changing,
}

impl Name {
    pub const CONVERSIONS: [Name; 6] = [
        Name::LbnToPda,
        Name::PdaToLbn,
        Name::LbnToLda,
        Name::LdaToLbn,
        Name::LbnToFileid,
        Name::FileidToLbn,
    ];
    pub const NAMES: [Name; 1] = [Name::Name];
    pub const READING: [Name; 9] = [
        Name::Check,
        Name::NextFile,
        Name::Read,
        Name::Show,
        Name::ShowPair,
        Name::Description,
        Name::Extract,
        Name::LookUp,
        Name::Tree,
    ];
    /// Those of the reading calls that look into directories.
    pub const DIRECTORIES: [Name; 2] = [Name::LookUp, Name::Tree];
    pub const CHANGING: [Name; 5] =
        [Name::Create, Name::Write, Name::Describe, Name::Destroy, Name::Repair];

    /// Every call.
    pub fn all() -> impl Iterator<Item = Name> {
        let without = Name::CONVERSIONS.into_iter().chain(Name::NAMES);
        without.chain(Name::READING).chain(Name::CHANGING)
    }

    pub fn group(self) -> Group {
        if Name::CONVERSIONS.contains(&self) {
            Group::Conversions
        } else if Name::NAMES.contains(&self) {
            Group::Names
        } else if Name::READING.contains(&self) {
            Group::Reading
        } else {
            Group::Changing
        }
    }
}

/// A call with its arguments. Every argument that any call has is here; a call looks only at its own.
#[derive(Clone, Debug, PartialEq, Eq)]
pub struct Call {
    pub name: Name,
    pub drive: u32,
    pub s: u32,
    pub f: u32,
    pub r: u32,
    /// A conversion's number, what next_file goes on after, or create's kind.
    pub number: u32,
    pub limit: u32,
    /// The hash rule of look_up and tree.
    pub rule: Vec<u8>,
    /// What look_up looks for.
    pub path: Vec<u8>,
    /// The caller's buffer before the call; tree's rows.
    pub buffer: Vec<u8>,
}

impl Call {
    /// A call whose further arguments are 0 or empty, its limit the largest.
    pub fn new(name: Name, drive: u32, s: u32) -> Call {
        let (rule, path, buffer) = (Vec::new(), Vec::new(), Vec::new());
        Call { name, drive, s, f: 0, r: 0, number: 0, limit: u32::MAX, rule, path, buffer }
    }

    pub fn conversion(name: Name, drive: u32, number: u32) -> Call {
        Call::new(name, drive, 0).with_number(number)
    }

    /// What describe says of the name in a description.
    pub fn name_of(description: &[u8]) -> Call {
        Call::new(Name::Name, 0, 0).with_buffer(description)
    }

    pub fn with_file(self, f: u32) -> Call {
        Call { f, ..self }
    }

    pub fn with_block(self, r: u32) -> Call {
        Call { r, ..self }
    }

    pub fn with_number(self, number: u32) -> Call {
        Call { number, ..self }
    }

    pub fn with_limit(self, limit: u32) -> Call {
        Call { limit, ..self }
    }

    pub fn with_rule(self, rule: &[u8]) -> Call {
        Call { rule: rule.to_vec(), ..self }
    }

    pub fn with_path(self, path: &[u8]) -> Call {
        Call { path: path.to_vec(), ..self }
    }

    pub fn with_buffer(self, buffer: &[u8]) -> Call {
        Call { buffer: buffer.to_vec(), ..self }
    }
}

/// The memory that a call is lent, each part of it apart from the others. A call looks only at its own.
pub struct Lent<'a> {
    pub image: &'a mut [u8],
    /// The second image of a pair.
    pub repaired: &'a [u8],
    pub rule: &'a [u8],
    pub path: &'a [u8],
    pub buffer: &'a mut [u8],
}

/// Makes a call on one side; both have the same functions.
macro_rules! conversion {
    ($side:ident, $call:ident) => {
        match $call.name {
            Name::LbnToPda => $side::lbn_to_pda($call.drive, $call.number),
            Name::PdaToLbn => $side::pda_to_lbn($call.drive, $call.number),
            Name::LbnToLda => $side::lbn_to_lda($call.drive, $call.number),
            Name::LdaToLbn => $side::lda_to_lbn($call.drive, $call.number),
            Name::LbnToFileid => $side::lbn_to_fileid($call.drive, $call.number),
            Name::FileidToLbn => $side::fileid_to_lbn($call.drive, $call.number),
            other => unreachable!("{other:?} is no conversion"),
        }
    };
}

macro_rules! reading {
    ($side:ident, $call:ident, $lent:ident) => {{
        let Call { drive, s, f, r, number, .. } = *$call;
        let Lent { image, repaired, rule, path, buffer } = $lent;
        match $call.name {
            Name::Check => $side::check(image, drive, s),
            Name::NextFile => $side::next_file(image, drive, s, number),
            Name::Read => $side::read(image, drive, s, f, r, buffer),
            Name::Show => $side::show(image, drive, s, f, r),
            Name::ShowPair => $side::show_pair(image, repaired, drive, s, f, r),
            Name::Description => $side::description(image, drive, s, f, buffer),
            Name::Extract => $side::extract(image, drive, s, f, buffer),
            Name::LookUp => $side::look_up(image, drive, s, rule, path),
            Name::Tree => $side::tree(image, drive, s, rule, buffer),
            other => unreachable!("{other:?} does not read"),
        }
    }};
}

macro_rules! changing {
    ($side:ident, $call:ident, $lent:ident) => {{
        let Call { drive, s, f, r, number, limit, .. } = *$call;
        let Lent { image, buffer, .. } = $lent;
        match $call.name {
            Name::Create => $side::create(image, drive, s, number as u16, limit),
            Name::Write => $side::write(image, drive, s, f, r, buffer, limit),
            Name::Describe => $side::describe(image, drive, s, f, buffer, limit),
            Name::Destroy => $side::destroy(image, drive, s, f, limit),
            Name::Repair => $side::repair(image, drive, s, limit),
            other => unreachable!("{other:?} does not change"),
        }
    }};
}

/// Makes a call on the library, on an image and a buffer that the caller lends; `repaired` is the second image of a
/// pair.
pub fn on_library(call: &Call, image: &mut [u8], repaired: &[u8], buffer: &mut [u8]) -> Answer {
    on_library_lent(call, Lent { image, repaired, rule: &call.rule, path: &call.path, buffer })
}

/// The same with the rule and the path in memory of the caller's choice as well.
pub fn on_library_lent(call: &Call, lent: Lent) -> Answer {
    let answer = match call.name.group() {
        Group::Conversions => conversion!(raw, call),
        Group::Names => raw::name(lent.buffer),
        Group::Reading => reading!(raw, call, lent),
        Group::Changing => changing!(raw, call, lent),
    };
    same_fields(answer)
}

/// The library's answer as one that can be compared with the reference's.
pub fn same_fields(answer: raw::Answer) -> Answer {
    let raw::Answer { outcome, number, block, made, a, b, c } = answer;
    Answer { outcome, number, block, made, a, b, c }
}

/// Makes a call on the reference.
pub fn on_reference(call: &Call, image: &mut [u8], repaired: &[u8], buffer: &mut [u8]) -> Answer {
    let lent = Lent { image, repaired, rule: &call.rule, path: &call.path, buffer };
    match call.name.group() {
        Group::Conversions => conversion!(reference, call),
        Group::Names => reference::name(lent.buffer),
        Group::Reading => reading!(reference, call, lent),
        Group::Changing => changing!(reference, call, lent),
    }
}
