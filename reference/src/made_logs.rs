//! Logs in which the lengths are those of the run, made of any moves. They serve the tests, the
//! comparison and the bench. The lengths come from the same function that replay calls, so they do
//! not judge it: the logs written by hand in the tests do, and so does the comparison.

use crate::logs::{read_log, write_log, LogRecord, Rule};
use crate::moves::{Form, Move};
use crate::random::Random;
use crate::records::read_system;
use crate::replay::Direction;
use crate::words::Word;

/// The places of a log's log records in the order in which they are run.
fn in_order_of_run(records: usize, direction: Direction) -> Vec<usize> {
    let mut places: Vec<usize> = (0..records).collect();
    if direction == Direction::Backward {
        places.reverse();
    }
    places
}

/// The log with the lengths that replay demands of it over this system in this direction, as far as
/// the moves fit. The length of the first that does not fit stays, and so do those after it in the
/// run; a log that is refused with its system before the run stays whole.
pub fn with_lengths_of_the_run(system: &[u8], log: &[u8], direction: Direction) -> Vec<u8> {
    let Ok(mut system) = read_system(system) else {
        return log.to_vec();
    };
    let Ok(mut records) = read_log(log, system.count()) else {
        return log.to_vec();
    };
    for place in in_order_of_run(records.len(), direction) {
        match direction.run(records[place].step, system.words_mut()) {
            Some(length) => records[place].length = length,
            None => break,
        }
    }
    write_log(&records)
}

/// All log records over this many slots that tell this length: every move, with the letters by turns.
pub fn every_move(slots: usize, length: usize) -> Vec<LogRecord> {
    let mut records = Vec::new();
    for changed in 0..slots {
        for other in (0..slots).filter(|&other| other != changed) {
            for form in Form::ALL {
                let step = Move {
                    changed,
                    form,
                    other,
                };
                let rule = Rule::BOTH[records.len() % 2];
                records.push(LogRecord { step, rule, length });
            }
        }
    }
    records
}

impl Random {
    /// A log of at most this many moves that replay runs over these words to its end in this
    /// direction. The letters come by turns, since replay takes either.
    pub fn log(&mut self, words: &[Word], moves: usize, direction: Direction) -> Vec<u8> {
        let mut words = words.to_vec();
        let mut records = Vec::new();
        if words.len() < 2 {
            return Vec::new();
        }
        for _ in 0..moves {
            let step = self.any_move(words.len());
            if let Some(length) = direction.run(step, &mut words) {
                let rule = Rule::BOTH[records.len() % 2];
                records.push(LogRecord { step, rule, length });
            }
        }
        if direction == Direction::Backward {
            records.reverse();
        }
        write_log(&records)
    }

    /// A log of this many moves over at least two slots, each with any letter and any two digits.
    pub fn any_log(&mut self, slots: usize, moves: usize) -> Vec<u8> {
        let record = |_| LogRecord {
            step: self.any_move(slots),
            rule: Rule::BOTH[self.below(2)],
            length: self.below(100),
        };
        let records: Vec<LogRecord> = (0..moves).map(record).collect();
        write_log(&records)
    }
}
