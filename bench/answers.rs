//! How a plain concentrator answers what arrives, and how often it did.

/// Why what arrived is refused.
#[derive(Clone, Copy, Debug, PartialEq, Eq)]
pub enum Refusal {
    Short,
    BadSync,
    SizeMismatch,
    BadCheck,
    BadId,
    WrongId,
    WrongKind,
    Cut,
    TooMany,
    FloatFormat,
    WrongTimeBase,
    WrongRate,
    WrongSource,
    BadOwnBlock,
    UnknownSource,
    OldStamp,
    StaleCount,
    CountConflict,
    BadTag,
    NoConfig,
    WrongLength,
    OtherStamp,
    Late,
    Ahead,
    OutOfWindow,
    Duplicate,
    Conflict,
}

/// How many causes there are.
const CAUSES: usize = 27;

/// What arrived is held or taken.
#[derive(Clone, Copy, Debug, PartialEq, Eq)]
pub enum Answer {
    Taken,
    Candidate,
    Known,
}

/// How many arrivals were answered so. A counter stays at its greatest value.
#[derive(Default)]
pub struct Counts {
    pub taken: u64,
    pub candidate: u64,
    pub known: u64,
    pub refused: u64,
    pub causes: [u64; CAUSES],
}

fn add_one(count: &mut u64) {
    *count = count.saturating_add(1);
}

impl Counts {
    pub fn count(&mut self, answer: Result<Answer, Refusal>) {
        match answer {
            Ok(Answer::Taken) => add_one(&mut self.taken),
            Ok(Answer::Candidate) => add_one(&mut self.candidate),
            Ok(Answer::Known) => add_one(&mut self.known),
            Err(refusal) => {
                add_one(&mut self.refused);
                add_one(&mut self.causes[refusal as usize]);
            }
        }
    }
}
