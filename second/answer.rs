//! What a verdict and any other call return (document 01, "The answer table").

use std::fmt;

#[derive(Clone, Copy, Debug, PartialEq, Eq, Default)]
pub struct Verdict {
    pub answer: u64,
    pub place: u64,
    pub load: u64,
    pub frame: u64,
    pub length: u64,
}

impl Verdict {
    /// All refusals return frame load, frame and length 0.
    pub fn refused(answer: u64, place: u64) -> Verdict {
        Verdict {
            answer,
            place,
            ..Verdict::default()
        }
    }
}

/// The program's one line: answer, place, frame load, frame, length.
impl fmt::Display for Verdict {
    fn fmt(&self, f: &mut fmt::Formatter) -> fmt::Result {
        write!(
            f,
            "{} {} {} {} {}",
            self.answer, self.place, self.load, self.frame, self.length
        )
    }
}

#[derive(Clone, Copy, Debug, PartialEq, Eq)]
pub struct Refusal {
    pub answer: u64,
    pub place: u64,
}

/// A call other than the verdict: the value asked for, or how many numbers or bytes were
/// written, and what was written at the start of the lent room.
#[derive(Clone, Debug, PartialEq, Eq)]
pub struct Reply {
    pub answer: u64,
    pub place: u64,
    pub value: u64,
    pub written: Vec<u64>,
}
