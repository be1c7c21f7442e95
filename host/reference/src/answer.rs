//! What a call answers (the seven fields of perq_answer) and why it refuses.

pub const DONE: u32 = 0;
pub const ABSENT: u32 = 1;
pub const REFUSED: u32 = 2;

/// A field that a call does not speak of is 0.
#[derive(Clone, Copy, Debug, PartialEq, Eq, Default)]
pub struct Answer {
    /// `DONE`, `ABSENT` or `REFUSED`.
    pub outcome: u32,
    /// When refused: the number in document 01 or 02.
    pub number: u32,
    /// When refused by 4: the LBN of the malformed candidate; by 11: the directory of the tenth level.
    pub block: u32,
    /// Changing calls: how many stores were made.
    pub made: u32,
    pub a: u32,
    pub b: u32,
    pub c: u32,
}

impl Answer {
    pub fn done(a: u32, b: u32, c: u32) -> Answer {
        Answer { outcome: DONE, a, b, c, ..Answer::default() }
    }

    pub fn absent() -> Answer {
        Answer { outcome: ABSENT, ..Answer::default() }
    }
}

/// A number of document 01's table "Numbers a caller sees", or document 02's 11 and 12; `block` is 0
/// except under 4 and 11.
#[derive(Clone, Copy, Debug, PartialEq, Eq)]
pub struct Refusal {
    pub number: u32,
    pub block: u32,
}

impl Refusal {
    pub fn malformed(block: u32) -> Refusal {
        Refusal { number: 4, block }
    }

    /// The directory at this block is of the tenth level.
    pub fn too_deep(block: u32) -> Refusal {
        Refusal { number: 11, block }
    }

    /// Refuses with `number` unless `fine`.
    pub fn unless(fine: bool, number: u32) -> Result<(), Refusal> {
        if fine {
            Ok(())
        } else {
            Err(Refusal { number, block: 0 })
        }
    }
}

impl From<Refusal> for Answer {
    fn from(refusal: Refusal) -> Answer {
        let Refusal { number, block } = refusal;
        Answer { outcome: REFUSED, number, block, ..Answer::default() }
    }
}

/// The answer inside either case.
pub fn settle(result: Result<Answer, Refusal>) -> Answer {
    result.unwrap_or_else(Answer::from)
}
