//! What a call answers: a verdict, a refusal's number and place, and the numbers a call may give.
//! What a call does not give is 0, and under a refusal all but number and place are 0.

use crate::refusals::Refusal;

/// The verdict of a call that did what it was asked.
pub const DONE: u64 = 0;
/// The verdict of ask, of member and of trace for a target that lies in the subgroup.
pub const MEMBER: u64 = 1;
/// The verdict of ask, of member and of trace for a target that does not.
pub const NOT_A_MEMBER: u64 = 2;
/// The verdict of a call that was turned down.
pub const REFUSED: u64 = 3;

/// The seven numbers of an answer, in the order in which C sees them.
#[derive(Clone, Copy, Debug, Default, PartialEq, Eq)]
#[repr(C)]
pub struct Answer {
    pub verdict: u64,
    pub number: u64,
    pub place: u64,
    pub moves: u64,
    pub rank: u64,
    pub independent: u64,
    pub reduced: u64,
}

impl Answer {
    /// The answer of a call that is done and gives no number.
    pub fn done() -> Answer {
        Answer {
            verdict: DONE,
            ..Answer::default()
        }
    }

    /// The answer of a call that was turned down.
    pub fn refused(refusal: Refusal) -> Answer {
        Answer {
            verdict: REFUSED,
            number: refusal.number,
            place: refusal.place,
            ..Answer::default()
        }
    }

    /// The seven numbers as an array.
    pub fn numbers(&self) -> [u64; 7] {
        [
            self.verdict,
            self.number,
            self.place,
            self.moves,
            self.rank,
            self.independent,
            self.reduced,
        ]
    }
}
