//! Logs: one log record of 8 bytes for each move, the first move first. A log record is the slot
//! changed, the form digit, the other slot, a space, the letter of the rule, the changed word's
//! length after the move in two digits, and a line feed.

use crate::moves::{Form, Move};
use crate::records::slot_named;
use crate::refusals::{Refusal, LOG_RECORD_MALFORMED, LOG_UNEVEN};

/// The length of a log record in bytes.
pub const LOG_RECORD: usize = 8;

const SPACE: u8 = b' ';
const LINE_FEED: u8 = b'\n';

/// The rule by which a move is made.
#[derive(Clone, Copy, Debug, PartialEq, Eq)]
pub enum Rule {
    Shortening,
    HalfEnd,
}

/// What a log record tells: the move, its rule, and the length of the changed word after the move.
#[derive(Clone, Copy, Debug, PartialEq, Eq)]
pub struct LogRecord {
    pub step: Move,
    pub rule: Rule,
    pub length: usize,
}

impl Rule {
    /// Both rules.
    pub const BOTH: [Rule; 2] = [Rule::Shortening, Rule::HalfEnd];

    /// The letter of the rule in a log.
    pub fn letter(self) -> u8 {
        match self {
            Rule::Shortening => b's',
            Rule::HalfEnd => b'h',
        }
    }

    /// The rule with this letter, if there is one.
    pub fn with_letter(letter: u8) -> Option<Rule> {
        Rule::BOTH.into_iter().find(|rule| rule.letter() == letter)
    }

    /// The other rule.
    pub fn exchanged(self) -> Rule {
        match self {
            Rule::Shortening => Rule::HalfEnd,
            Rule::HalfEnd => Rule::Shortening,
        }
    }
}

/// The number that a digit stands for, if the byte is one.
fn number_of_digit(byte: u8) -> Option<usize> {
    byte.is_ascii_digit().then(|| usize::from(byte - b'0'))
}

/// The digit of a number below 10.
fn digit_of_number(number: usize) -> u8 {
    b'0' + number as u8
}

impl LogRecord {
    /// The bytes of the log record; the length that it tells is below 100.
    pub fn bytes(self) -> [u8; LOG_RECORD] {
        assert!(self.length < 100, "a length has two digits");
        [
            b'a' + self.step.changed as u8,
            self.step.form.digit(),
            b'a' + self.step.other as u8,
            SPACE,
            self.rule.letter(),
            digit_of_number(self.length / 10),
            digit_of_number(self.length % 10),
            LINE_FEED,
        ]
    }

    /// What these bytes tell, if they are a log record over a system of this many slots.
    pub fn read(bytes: &[u8; LOG_RECORD], slots: usize) -> Option<LogRecord> {
        let &[changed, digit, other, space, letter, tens, units, last] = bytes;
        let step = Move {
            changed: slot_named(changed, slots)?,
            form: Form::with_digit(digit)?,
            other: slot_named(other, slots)?,
        };
        let rule = Rule::with_letter(letter)?;
        let length = 10 * number_of_digit(tens)? + number_of_digit(units)?;
        let is_sound = step.changed != step.other && space == SPACE && last == LINE_FEED;
        is_sound.then_some(LogRecord { step, rule, length })
    }
}

/// Checks a log by rules 7 and 8 over a system of this many slots, and reads its log records.
pub fn read_log(log: &[u8], slots: usize) -> Result<Vec<LogRecord>, Refusal> {
    let (records, rest) = log.as_chunks::<LOG_RECORD>();
    if !rest.is_empty() {
        return Err(Refusal::new(LOG_UNEVEN, 0));
    }
    let read = |(number, bytes)| {
        let malformed = Refusal::new(LOG_RECORD_MALFORMED, LOG_RECORD * number);
        LogRecord::read(bytes, slots).ok_or(malformed)
    };
    records.iter().enumerate().map(read).collect()
}

/// The log of these log records.
pub fn write_log(records: &[LogRecord]) -> Vec<u8> {
    records.iter().flat_map(|record| record.bytes()).collect()
}

#[cfg(test)]
mod tests {
    use super::*;

    /// Log records written out by hand, the first of them that of sheet P3.
    #[test]
    fn written_records() {
        let record = |changed, form, other, rule, length| {
            let step = Move {
                changed,
                form,
                other,
            };
            LogRecord { step, rule, length }.bytes()
        };
        let p3 = record(0, Form::InverseAfter, 1, Rule::Shortening, 1);
        assert_eq!(&p3, b"a4b s01\n");
        let half_end = record(15, Form::WordBefore, 0, Rule::HalfEnd, 63);
        assert_eq!(&half_end, b"p1a h63\n");
        for (length, expected) in [
            (0, b"c3b s00\n"),
            (1, b"c3b s01\n"),
            (9, b"c3b s09\n"),
            (10, b"c3b s10\n"),
            (59, b"c3b s59\n"),
        ] {
            let written = record(2, Form::WordAfter, 1, Rule::Shortening, length);
            assert_eq!(&written, expected);
        }
    }

    /// Every log record is read back as it was written, over the systems that have its slots alone.
    #[test]
    fn read_back() {
        for (changed, other) in [(0, 1), (1, 0), (15, 3), (2, 15)] {
            for form in Form::ALL {
                for rule in Rule::BOTH {
                    for length in 0..100 {
                        let step = Move {
                            changed,
                            form,
                            other,
                        };
                        let record = LogRecord { step, rule, length };
                        let most = changed.max(other);
                        for slots in 0..=16 {
                            let expected = (slots > most).then_some(record);
                            assert_eq!(LogRecord::read(&record.bytes(), slots), expected);
                        }
                    }
                }
            }
        }
    }

    /// A log is its log records one after the other.
    #[test]
    fn whole_logs() {
        let log = b"a2b s01\nb1a h02\nb1a s99\n";
        let records = read_log(log, 2).expect("the log is sound");
        let told: Vec<_> = records
            .iter()
            .map(|told| (told.rule, told.length))
            .collect();
        let expected = [
            (Rule::Shortening, 1),
            (Rule::HalfEnd, 2),
            (Rule::Shortening, 99),
        ];
        assert_eq!(told, expected);
        assert_eq!(write_log(&records), log);
        assert_eq!(read_log(b"", 0), Ok(Vec::new()));
    }
}
