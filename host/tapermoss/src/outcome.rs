//! What comes of a command, and of each image and partition that it looks at: its name, its exit status, and which of two
//! is worse.

/// From the best to the worst, so that the worst of several is the greatest.
#[derive(Clone, Copy, Debug, PartialEq, Eq, PartialOrd, Ord)]
pub enum Outcome {
    /// The command has done what it was asked.
    Done,
    /// The partition was looked at, and is sound.
    Sound,
    /// The repaired image was checked again, and is sound.
    Repaired,
    /// What was asked for is not there: a block of a file, a path, or entries to learn a rule from.
    Absent,
    /// A person must decide.
    SetAside,
    /// The name that was to be written is another file's.
    AnotherFile,
    /// The library refused.
    Refused,
    /// The command line asks for something that cannot be.
    WrongUse,
    /// The system cannot read, write or lock a file.
    Unreadable,
}

impl Outcome {
    /// What can come of an image.
    pub const OF_IMAGES: [Outcome; 7] = [
        Outcome::Sound,
        Outcome::Repaired,
        Outcome::SetAside,
        Outcome::AnotherFile,
        Outcome::Refused,
        Outcome::WrongUse,
        Outcome::Unreadable,
    ];

    pub fn name(self) -> &'static str {
        match self {
            Outcome::Done => "done",
            Outcome::Sound => "sound",
            Outcome::Repaired => "repaired",
            Outcome::Absent => "absent",
            Outcome::SetAside => "set aside",
            Outcome::AnotherFile => "another file",
            Outcome::Refused => "refused",
            Outcome::WrongUse => "wrong use",
            Outcome::Unreadable => "unreadable",
        }
    }

    pub fn status(self) -> u8 {
        match self {
            Outcome::Done | Outcome::Sound => 0,
            Outcome::Refused => 1,
            Outcome::WrongUse => 2,
            Outcome::Repaired => 3,
            Outcome::SetAside => 4,
            Outcome::Unreadable => 5,
            Outcome::AnotherFile => 6,
            Outcome::Absent => 7,
        }
    }
}

/// The exit statuses, for the help.
pub const STATUSES: &str = "\
Exit statuses of all commands; of several images or partitions it is that of the worst, in the order 0, 3, 7, 4, 6, 1, 2, 5:
  0  done, or sound
  1  refused by the library: the sentence has the number
  2  wrong use of the command line
  3  repaired
  4  set aside: a person must decide
  5  unreadable: the system cannot read, write or lock a file
  6  another file has the name that was to be written
  7  absent: what was asked for is not there: a block of a file, a path, or entries to learn a rule from";
