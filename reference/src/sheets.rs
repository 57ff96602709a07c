//! The worked sheets with their expected outcomes, as data for the tests, for the comparison and
//! for the cases of the program. Nielsen's four words and some systems with blank slots, which have
//! no label, stand among them; the other sheets without a label are tests of their own below.

use crate::records::MOST_RECORDS;
use crate::refusals::{
    Refusal, PRODUCT_BUFFER_SHORT, SYSTEM_NOT_REDUCED, SYSTEM_TOO_LONG, SYSTEM_UNEVEN,
};

/// What a sheet expects of its target.
#[derive(Clone, Copy, Debug, PartialEq, Eq)]
pub enum Target {
    /// The sheet has no target.
    None,
    /// The target is a member, by this product.
    Member(&'static str, &'static str),
    /// The target is not a member.
    NotMember(&'static str),
}

/// One worked sheet; what it does not state is left as `None`.
pub struct Sheet {
    pub name: &'static str,
    pub given: &'static [&'static str],
    pub target: Target,
    pub log: Option<&'static str>,
    pub reduced: Option<&'static [&'static str]>,
    pub rank: Option<u64>,
    pub independent: Option<bool>,
}

/// A sheet that states nothing.
const UNSTATED: Sheet = Sheet {
    name: "",
    given: &[],
    target: Target::None,
    log: None,
    reduced: None,
    rank: None,
    independent: None,
};

/// The records that the sheets on tidy give, with what they are tidied to.
pub const TIDY: [(&str, &str, &str); 2] = [("P1", "aAbBc", "c"), ("P2", "abBA", "")];

/// The sheets from P3 on, I1 and I2, Nielsen's four words, and more systems with blank slots.
pub const SHEETS: [Sheet; 16] = [
    Sheet {
        name: "P3",
        given: &["ab", "b"],
        target: Target::Member("a", "a"),
        log: Some("a4b s01\n"),
        reduced: Some(&["a", "b"]),
        rank: Some(2),
        independent: Some(true),
    },
    Sheet {
        name: "P4",
        given: &["aa", "aaa"],
        target: Target::Member("a", "b"),
        log: Some("a2b s01\nb1a s02\nb1a s01\na1b s00\n"),
        reduced: Some(&["", "a"]),
        rank: Some(1),
        independent: Some(false),
    },
    Sheet {
        name: "P5",
        given: &["ab", "ac", "Bd"],
        target: Target::Member("Cd", "Bc"),
        log: Some("c1a h02\n"),
        reduced: Some(&["ab", "ac", "ad"]),
        ..UNSTATED
    },
    Sheet {
        name: "P6",
        given: &["ab", "ac", "Bd"],
        target: Target::NotMember("d"),
        log: Some("c1a h02\n"),
        reduced: Some(&["ab", "ac", "ad"]),
        ..UNSTATED
    },
    Sheet {
        name: "P7",
        given: &["a", "BAc", "dbb"],
        target: Target::Member("adbAcACaBD", "acbABC"),
        log: Some(""),
        reduced: Some(&["a", "BAc", "dbb"]),
        ..UNSTATED
    },
    Sheet {
        name: "P8",
        given: &["ab"],
        target: Target::NotMember("ba"),
        ..UNSTATED
    },
    Sheet {
        name: "P9",
        given: &[],
        target: Target::Member("", ""),
        log: Some(""),
        reduced: Some(&[]),
        rank: Some(0),
        independent: Some(true),
    },
    Sheet {
        name: "P10",
        given: &[],
        target: Target::NotMember("a"),
        ..UNSTATED
    },
    Sheet {
        name: "P11",
        given: &["ab", "ab"],
        target: Target::Member("abab", "bb"),
        log: Some("a2b s00\n"),
        rank: Some(1),
        independent: Some(false),
        ..UNSTATED
    },
    Sheet {
        name: "P12",
        given: &["aA", "b"],
        log: Some(""),
        reduced: Some(&["", "b"]),
        rank: Some(1),
        independent: Some(false),
        ..UNSTATED
    },
    Sheet {
        name: "Nielsen's four words",
        given: &["dbAc", "aaBBD", "BAcBAc", "dbbABAc"],
        rank: Some(3),
        independent: Some(false),
        ..UNSTATED
    },
    Sheet {
        name: "one blank record",
        given: &[""],
        log: Some(""),
        reduced: Some(&[""]),
        rank: Some(0),
        independent: Some(false),
        ..UNSTATED
    },
    Sheet {
        name: "I1",
        given: &[""; MOST_RECORDS],
        log: Some(""),
        reduced: Some(&[""; MOST_RECORDS]),
        rank: Some(0),
        independent: Some(false),
        ..UNSTATED
    },
    Sheet {
        name: "two of three words that cancel to nothing",
        given: &["aA", "b", "bB"],
        log: Some(""),
        reduced: Some(&["", "b", ""]),
        rank: Some(1),
        independent: Some(false),
        ..UNSTATED
    },
    Sheet {
        name: "I2",
        given: &["ab", "", "b"],
        log: Some("a4c s01\n"),
        reduced: Some(&["a", "", "b"]),
        rank: Some(2),
        independent: Some(false),
        ..UNSTATED
    },
    Sheet {
        name: "a slot given blank and one that becomes blank",
        given: &["", "ab", "ab"],
        log: Some("b2c s00\n"),
        reduced: Some(&["", "", "ab"]),
        rank: Some(1),
        independent: Some(false),
        ..UNSTATED
    },
];

/// What a sheet on ask expects.
#[derive(Clone, Copy, Debug, PartialEq, Eq)]
pub enum Asked {
    /// The target is a member, by this product.
    Member(&'static str),
    /// The target is not a member.
    NotMember,
    /// The call is refused.
    Refused(Refusal),
}

/// One worked sheet on ask, with the length of its product buffer.
pub struct AskSheet {
    pub name: &'static str,
    pub asked: &'static [&'static str],
    pub target: &'static str,
    pub product_room: usize,
    pub answer: Asked,
}

/// The sheets on ask, from A1 on.
pub const ASK_SHEETS: [AskSheet; 6] = [
    AskSheet {
        name: "A1",
        asked: &["ab", "ac", "ad"],
        target: "Cd",
        product_room: 64,
        answer: Asked::Member("Bc"),
    },
    AskSheet {
        name: "A2",
        asked: &["ab", "ac", "ad"],
        target: "d",
        product_room: 64,
        answer: Asked::NotMember,
    },
    AskSheet {
        name: "A3",
        asked: &["cC", "aAb"],
        target: "bcCb",
        product_room: 64,
        answer: Asked::Member("bb"),
    },
    AskSheet {
        name: "A4",
        asked: &["ab", "b"],
        target: "a",
        product_room: 64,
        answer: Asked::Refused(Refusal::new(SYSTEM_NOT_REDUCED, 0)),
    },
    AskSheet {
        name: "A5",
        asked: &["ab", "b"],
        target: "a",
        product_room: 63,
        answer: Asked::Refused(Refusal::new(SYSTEM_NOT_REDUCED, 0)),
    },
    AskSheet {
        name: "A6",
        asked: &["a", "b"],
        target: "a",
        product_room: 63,
        answer: Asked::Refused(Refusal::new(PRODUCT_BUFFER_SHORT, 0)),
    },
];

/// What the bytes of a sheet on lengths are given to.
#[derive(Clone, Copy, Debug, PartialEq, Eq)]
pub enum GivenTo {
    Tidy,
    Program,
}

/// One worked sheet on lengths, which holds whatever the bytes are.
pub struct LengthSheet {
    pub name: &'static str,
    pub length: usize,
    pub given_to: GivenTo,
    pub answer: Refusal,
}

/// The sheets on lengths, from L1 on.
pub const LENGTH_SHEETS: [LengthSheet; 5] = [
    LengthSheet {
        name: "L1",
        length: 1023,
        given_to: GivenTo::Tidy,
        answer: Refusal::new(SYSTEM_UNEVEN, 0),
    },
    LengthSheet {
        name: "L2",
        length: 1025,
        given_to: GivenTo::Tidy,
        answer: Refusal::new(SYSTEM_TOO_LONG, 0),
    },
    LengthSheet {
        name: "L3",
        length: 1500,
        given_to: GivenTo::Tidy,
        answer: Refusal::new(SYSTEM_TOO_LONG, 0),
    },
    LengthSheet {
        name: "L4",
        length: 1087,
        given_to: GivenTo::Program,
        answer: Refusal::new(SYSTEM_UNEVEN, 0),
    },
    LengthSheet {
        name: "L5",
        length: 1089,
        given_to: GivenTo::Program,
        answer: Refusal::new(SYSTEM_TOO_LONG, 0),
    },
];

#[cfg(test)]
mod tests {
    use super::*;
    use crate::answers::{Answer, DONE, MEMBER, NOT_A_MEMBER, REFUSED};
    use crate::decision::check_member;
    use crate::logs::LOG_RECORD;
    use crate::program::program;
    use crate::random::Random;
    use crate::records::{record, system};
    use crate::reduction::{reduction, Reduction};
    use crate::refusals::*;
    use crate::{ask, member, replay, test, tidy, Direction};

    const FILL: u8 = 0xEE;

    /// Tidies the records given as texts and returns the words buffer.
    fn tidied(texts: &[&str]) -> Vec<u8> {
        let given = system(texts);
        let mut words = vec![FILL; given.len()];
        assert_eq!(tidy(&given, &mut words), Answer::done());
        words
    }

    /// The sheets P1 and P2.
    #[test]
    fn tidy_sheets() {
        for (name, given, expected) in TIDY {
            assert_eq!(tidied(&[given]), record(expected), "{name}");
        }
    }

    /// Checks the numbers, words and log of an answer against a sheet.
    fn check_reduction(sheet: &Sheet, answer: Answer, words: &[u8], log: &[u8]) {
        let name = sheet.name;
        assert_eq!(log.len(), LOG_RECORD * answer.moves as usize, "{name}");
        if let Some(expected) = sheet.log {
            assert_eq!(log, expected.as_bytes(), "{name}");
        }
        if let Some(expected) = sheet.reduced {
            assert_eq!(words, system(expected), "{name}");
        }
        if let Some(expected) = sheet.rank {
            assert_eq!(answer.rank, expected, "{name}");
        }
        if let Some(expected) = sheet.independent {
            assert_eq!(answer.independent, u64::from(expected), "{name}");
        }
    }

    /// Every sheet through reduce, test and replay both ways.
    #[test]
    fn reduce_sheets() {
        for sheet in &SHEETS {
            let given = system(sheet.given);
            let Reduction { answer, words, log } = reduction(&given);
            assert_eq!(answer.verdict, DONE);
            check_reduction(sheet, answer, &words, &log);
            assert_eq!(test(&words).reduced, 1);
            assert_eq!(test(&given).reduced, u64::from(answer.moves == 0));
            let mut after = vec![FILL; given.len()];
            let answer = replay(&given, &log, Direction::Forward, &mut after);
            assert_eq!((answer, &after), (Answer::done(), &words));
            let answer = replay(&words, &log, Direction::Backward, &mut after);
            assert_eq!(answer, Answer::done());
            assert_eq!(after, tidied(sheet.given));
        }
    }

    /// Every sheet with a target through member, multiply and the folded graph, and ask of its words.
    #[test]
    fn member_sheets() {
        for sheet in &SHEETS {
            let (target, verdict, expected) = match sheet.target {
                Target::None => continue,
                Target::Member(target, product) => (target, MEMBER, record(product)),
                Target::NotMember(target) => (target, NOT_A_MEMBER, [FILL; 64]),
            };
            let given = system(sheet.given);
            let target = record(target);
            let mut words = vec![FILL; given.len()];
            let mut log = reduction(&given).log;
            log.fill(FILL);
            let mut product = [FILL; 64];
            let answer = member(&given, &target, &mut words, &mut log, &mut product);
            check_reduction(sheet, answer, &words, &log);
            assert_eq!(answer.verdict, verdict, "{}", sheet.name);
            assert_eq!(product, expected, "{}", sheet.name);
            let checked = check_member([&given, &target], [&words, &log, &product], answer);
            assert_eq!(checked, Ok(()), "{}", sheet.name);
            let mut asked = [FILL; 64];
            let answer = ask(&words, &target, &mut asked);
            assert_eq!(answer.numbers(), [verdict, 0, 0, 0, 0, 0, 0]);
            assert_eq!(asked, expected, "{}", sheet.name);
            let answer = ask(&given, &target, &mut [FILL; 64]);
            let not_reduced = u64::from(!log.is_empty()) * SYSTEM_NOT_REDUCED;
            assert_eq!(answer.number, not_reduced, "{}", sheet.name);
        }
    }

    /// Every sheet on ask: its answer, and every byte of the product buffer.
    #[test]
    fn ask_sheets() {
        for sheet in &ASK_SHEETS {
            let mut product = vec![FILL; sheet.product_room];
            let untouched = product.clone();
            let answer = ask(&system(sheet.asked), &record(sheet.target), &mut product);
            let (numbers, expected) = match sheet.answer {
                Asked::Member(letters) => ([MEMBER, 0, 0], record(letters).to_vec()),
                Asked::NotMember => ([NOT_A_MEMBER, 0, 0], untouched),
                Asked::Refused(Refusal { number, place }) => ([REFUSED, number, place], untouched),
            };
            assert_eq!(answer.numbers()[..3], numbers, "{}", sheet.name);
            assert_eq!(answer.numbers()[3..], [0; 4], "{}", sheet.name);
            assert_eq!(product, expected, "{}", sheet.name);
        }
    }

    /// Every sheet on lengths, with sound records, with one byte alone and with random bytes.
    #[test]
    fn length_sheets() {
        let mut random = Random::new(16);
        for sheet in &LENGTH_SHEETS {
            let Refusal { number, place } = sheet.answer;
            let mut contents: Vec<Vec<u8>> = b"\0.\na\xFF".map(|byte| vec![byte; 1500]).to_vec();
            contents.push(system(&["ab"; 24]));
            contents.push((0..1500).map(|_| random.byte()).collect());
            for bytes in contents {
                let bytes = &bytes[..sheet.length];
                let mut words = [FILL; 1536];
                if sheet.given_to == GivenTo::Tidy {
                    let answer = tidy(bytes, &mut words);
                    assert_eq!(answer, Answer::refused(sheet.answer), "{}", sheet.name);
                    assert_eq!(words, [FILL; 1536], "{}", sheet.name);
                } else {
                    let line = format!("refused {number} at {place}\n");
                    assert_eq!(program(bytes), line.as_bytes(), "{}", sheet.name);
                }
            }
        }
    }

    /// Nielsen's four words are reduced to three words of 7 letters in all.
    #[test]
    fn nielsens_four_words() {
        let words = reduction(&system(&["dbAc", "aaBBD", "BAcBAc", "dbbABAc"])).words;
        let letters = words.iter().filter(|byte| byte.is_ascii_alphabetic());
        assert_eq!(letters.count(), 7);
    }

    /// The limits on lengths: what passes, and what gets 1 or 2.
    #[test]
    fn limits() {
        let full = "abcdefgabcdefgabcdefgabcdefgabcdefgabcdefgabcdefgabcdefgabcdefg";
        assert_eq!(full.len(), 63);
        assert_eq!(tidied(&[full]), record(full));
        let mut words = [FILL; 1088];
        let records = system(&["ab"; 17]);
        assert_eq!(tidy(&records[..1024], &mut words), Answer::done());
        assert_eq!(&words[..1024], &records[..1024]);
        assert_eq!(words[1024..], [FILL; 64]);
        for (length, number) in [(1088, SYSTEM_TOO_LONG), (63, SYSTEM_UNEVEN)] {
            let mut words = [FILL; 1088];
            let answer = tidy(&records[..length], &mut words);
            assert_eq!(answer.numbers(), [REFUSED, number, 0, 0, 0, 0, 0]);
            assert_eq!(words, [FILL; 1088]);
        }
        assert_eq!(tidy(&[], &mut []), Answer::done());
    }

    /// P3 with a log of 7 bytes gets 13, and with 8 bytes passes.
    #[test]
    fn short_logs() {
        let given = system(&["ab", "b"]);
        let mut words = [FILL; 128];
        let mut log = [FILL; 8];
        let mut product = [FILL; 64];
        let target = record("a");
        let answer = member(&given, &target, &mut words, &mut log[..7], &mut product);
        assert_eq!(answer.numbers(), [REFUSED, LOG_BUFFER_SHORT, 0, 0, 0, 0, 0]);
        assert_eq!((words, log, product), ([FILL; 128], [FILL; 8], [FILL; 64]));
        let answer = member(&given, &target, &mut words, &mut log, &mut product);
        assert_eq!(answer.numbers(), [MEMBER, 0, 0, 1, 2, 1, 0]);
        assert_eq!(words, system(&["a", "b"])[..]);
        assert_eq!(&log, b"a4b s01\n");
        assert_eq!(product, record("a"));
    }
}
