//! The call replay: follow anybody's log forward from a system, or undo it backward.
//! The words are freely reduced first, and so is each result. The length of the changed word after each
//! move must be the one that its log record tells; the letter of the rule is not looked at.

use crate::answers::Answer;
use crate::logs::{read_log, LogRecord};
use crate::moves::Move;
use crate::records::{check_room_for_words, read_system};
use crate::refusals::{Refusal, LENGTH_DIFFERS, WORD_TOO_LONG};
use crate::words::Word;

/// Which way a log is run; backward undoes the last move first.
#[derive(Clone, Copy, Debug, PartialEq, Eq)]
pub enum Direction {
    Forward,
    Backward,
}

impl Direction {
    /// Both directions.
    pub const BOTH: [Direction; 2] = [Direction::Forward, Direction::Backward];

    /// The direction that a byte asks for: backward unless it is 0.
    pub fn asked_for_by(backward: u8) -> Direction {
        match backward {
            0 => Direction::Forward,
            _ => Direction::Backward,
        }
    }

    /// The other direction.
    pub fn turned(self) -> Direction {
        match self {
            Direction::Forward => Direction::Backward,
            Direction::Backward => Direction::Forward,
        }
    }

    /// Makes a move, or undoes it where the log is run backward, and gives the length that the changed
    /// word has after the move: when it is undone that is the length before. None, and no change, if the
    /// result is over 63 letters.
    pub fn run(self, step: Move, words: &mut [Word]) -> Option<usize> {
        let before = words[step.changed].len();
        match self {
            Direction::Forward => step.make(words).then(|| words[step.changed].len()),
            Direction::Backward => step.undoing().make(words).then_some(before),
        }
    }
}

/// Writes the system after the log into the buffer for words.
pub fn replay(system: &[u8], log: &[u8], direction: Direction, words: &mut [u8]) -> Answer {
    replay_or_refuse(system, log, direction, words).unwrap_or_else(Answer::refused)
}

/// Does what replay promises, or gives the refusal.
fn replay_or_refuse(
    system: &[u8],
    log: &[u8],
    direction: Direction,
    words: &mut [u8],
) -> Result<Answer, Refusal> {
    let mut system = read_system(system)?;
    let records = read_log(log, system.count())?;
    check_room_for_words(words, system.count())?;
    for turn in 1..=records.len() {
        let number = match direction {
            Direction::Forward => turn,
            Direction::Backward => records.len() + 1 - turn,
        };
        run_record(number, records[number - 1], direction, system.words_mut())?;
    }
    system.write(words);
    Ok(Answer::done())
}

/// Runs the move of the log record with this number, by rule 12 and then rule 22.
fn run_record(
    number: usize,
    record: LogRecord,
    direction: Direction,
    words: &mut [Word],
) -> Result<(), Refusal> {
    let length = direction.run(record.step, words);
    let length = length.ok_or(Refusal::new(WORD_TOO_LONG, number))?;
    if length != record.length {
        return Err(Refusal::new(LENGTH_DIFFERS, number));
    }
    Ok(())
}
