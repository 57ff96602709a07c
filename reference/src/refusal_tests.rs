//! Tests of every refusal in every call that can give it: number, place and untouched buffers.
//! Two faults at once show the order in which they are tried. Those of logs are in log_tests.rs.

use crate::answers::{Answer, DONE, MEMBER, NOT_A_MEMBER};
use crate::logs::LOG_RECORD;
use crate::records::{record, system};
use crate::refusals::*;
use crate::tracing::MOST_EDGES;
use crate::{
    ask, member, multiply, reduce, replay, show, test, tidy, to_numbers, trace, Direction, Edge,
};

const FILL: u8 = 0xEE;

/// The answer of a refusal.
fn refused(number: u64, place: usize) -> Answer {
    Answer::refused(Refusal::new(number, place))
}

/// The answers of every call to this system, with a target, a product and a log that are too short,
/// and with little room, of which the last 8 bytes are a log of 5 and a product buffer of 3, and with
/// no edges.
fn answers_of_every_call(given: &[u8], words: &mut [u8; 64], rest: &mut [u8; 8]) -> [Answer; 10] {
    let (log, product) = rest.split_at_mut(5);
    let replayed = Direction::BOTH.map(|direction| replay(given, b"a1", direction, words));
    [
        tidy(given, words),
        reduce(given, words, log),
        test(given),
        ask(given, b"bad", product),
        member(given, b"bad", words, log, product),
        replayed[0],
        replayed[1],
        multiply(given, b"bad", words),
        to_numbers(given, words),
        trace(given, b"bad", &mut []),
    ]
}

/// Checks that every call refuses this system with the same number and place and writes nothing.
fn every_call_refuses(given: &[u8], number: u64, place: usize) {
    let (mut words, mut rest) = ([FILL; 64], [FILL; 8]);
    let answers = answers_of_every_call(given, &mut words, &mut rest);
    assert_eq!(answers, [refused(number, place); 10], "{}", given.len());
    assert_eq!((words, rest), ([FILL; 64], [FILL; 8]));
}

/// Checks that no call refuses this system for its length.
fn no_call_refuses_the_length(given: &[u8]) {
    for answer in answers_of_every_call(given, &mut [FILL; 64], &mut [FILL; 8]) {
        let of_length = [SYSTEM_UNEVEN, SYSTEM_TOO_LONG].contains(&answer.number);
        assert!(!of_length, "{}", given.len());
    }
}

/// Systems of 2,304 bytes: a sound one, whose first byte is an a already, and three whose first
/// record breaks rule 3, 4 or 5.
fn long_systems() -> [Vec<u8>; 4] {
    let sound = system(&["ab"; 36]);
    [(0, b'a'), (63, b'.'), (7, b'?'), (9, b'x')].map(|(place, byte)| {
        let mut given = sound.clone();
        given[place] = byte;
        given
    })
}

/// Refusals 2 and 1 at every length to 2,300, and 2 before 1 and both before all others.
#[test]
fn lengths() {
    for given in long_systems() {
        for length in 0..=2300 {
            let given = &given[..length];
            if length > 1024 {
                every_call_refuses(given, SYSTEM_TOO_LONG, 0);
            } else if !length.is_multiple_of(64) {
                every_call_refuses(given, SYSTEM_UNEVEN, 0);
            } else {
                no_call_refuses_the_length(given);
            }
        }
    }
}

/// The lengths around 16 and 17 records and some others, one by one, of which 1,024 bytes pass.
#[test]
fn telling_lengths() {
    let given = system(&["ab"; 36]);
    for (length, number) in [
        (63, SYSTEM_UNEVEN),
        (1023, SYSTEM_UNEVEN),
        (1025, SYSTEM_TOO_LONG),
        (1087, SYSTEM_TOO_LONG),
        (1088, SYSTEM_TOO_LONG),
        (1089, SYSTEM_TOO_LONG),
        (1500, SYSTEM_TOO_LONG),
        (1600, SYSTEM_TOO_LONG),
        (2300, SYSTEM_TOO_LONG),
    ] {
        every_call_refuses(&given[..length], number, 0);
    }
    let given = &given[..1024];
    let (mut words, mut log) = ([FILL; 1024], [FILL; 15 * LOG_RECORD]);
    assert_eq!(tidy(given, &mut words), Answer::done());
    assert_eq!(to_numbers(given, &mut [FILL; 2048]), Answer::done());
    assert_eq!(test(given), Answer::done());
    for direction in Direction::BOTH {
        assert_eq!(replay(given, b"", direction, &mut words), Answer::done());
    }
    assert_eq!(multiply(given, &record("pA"), &mut words), Answer::done());
    let answer = ask(given, &record("ab"), &mut words);
    assert_eq!(answer, refused(SYSTEM_NOT_REDUCED, 0));
    let answer = reduce(given, &mut words, &mut log);
    assert_eq!(answer.numbers(), [DONE, 0, 0, 15, 1, 0, 0]);
    let mut product = [FILL; 64];
    let answer = member(given, &record("ab"), &mut words, &mut log, &mut product);
    assert_eq!(answer.numbers(), [MEMBER, 0, 0, 15, 1, 0, 0]);
    assert_eq!(ask(&words, &record("ab"), &mut product).verdict, MEMBER);
    let mut table = [Edge::default(); MOST_EDGES];
    assert_eq!(trace(given, &record("ab"), &mut table).verdict, MEMBER);
}

/// The number by the system's length in the former order: uneven, then more than 16 records.
fn former_number(length: usize) -> Option<u64> {
    if !length.is_multiple_of(64) {
        Some(1)
    } else if length / 64 > 16 {
        Some(2)
    } else {
        None
    }
}

/// Only uneven systems of more than 1,024 bytes are answered otherwise than in the former order.
#[test]
fn change_of_the_former_order() {
    let mut changed = 0;
    for given in long_systems() {
        for length in 0..=2300 {
            let mut expected = former_number(length);
            if length > 1024 && !length.is_multiple_of(64) {
                assert_eq!(expected, Some(1), "{length}");
                expected = Some(2);
                changed += 1;
            }
            match expected {
                Some(number) => every_call_refuses(&given[..length], number, 0),
                None => no_call_refuses_the_length(&given[..length]),
            }
        }
    }
    assert_eq!(changed, 4 * 1257);
}

/// Refusals 3, 4 and 5 at every place, and their order within and between records.
#[test]
fn malformed_records() {
    for slot in 0..16 {
        let mut given = system(&["abc"; 16]);
        given[64 * slot + 63] = b'.';
        every_call_refuses(&given, NO_LINE_FEED, 64 * slot + 63);
        for byte in 0..63 {
            let place = 64 * slot + byte;
            let mut given = system(&["abc"; 16]);
            given[place] = b'\n';
            every_call_refuses(&given, NEITHER_LETTER_NOR_STOP, place);
            if byte > 3 {
                given[place] = b'z';
                every_call_refuses(&given, LETTER_AFTER_STOP, place);
            }
        }
    }
    let mut given = system(&["abc", "abc"]);
    given[10] = b'x';
    given[20] = b'?';
    given[127] = b'.';
    every_call_refuses(&given, NEITHER_LETTER_NOR_STOP, 20);
    given[63] = 0;
    every_call_refuses(&given, NO_LINE_FEED, 63);
    given[63] = b'\n';
    given[20] = b'.';
    every_call_refuses(&given, LETTER_AFTER_STOP, 10);
    given[10] = b'.';
    every_call_refuses(&given, NO_LINE_FEED, 127);
}

/// Refusal 6 of target and product, before 9, 10, 11, 15 and 21.
#[test]
fn malformed_targets() {
    let given = system(&["ab", "b"]);
    let sound = record("ac");
    let mut cases = vec![(sound[..63].to_vec(), 0), (Vec::new(), 0)];
    cases.push((system(&["a", "b"]), 0));
    for (place, byte, expected) in [(63, b'.', 63), (5, b' ', 5), (9, b'a', 9), (0, b'.', 1)] {
        let mut bytes = sound;
        bytes[place] = byte;
        cases.push((bytes.to_vec(), expected));
    }
    for (bytes, place) in cases {
        let expected = refused(TARGET_OR_PRODUCT_MALFORMED, place);
        assert_eq!(
            member(&given, &bytes, &mut [], &mut [], &mut []),
            expected,
            "{bytes:?}"
        );
        assert_eq!(multiply(&given, &bytes, &mut []), expected, "{bytes:?}");
        assert_eq!(trace(&given, &bytes, &mut []), expected, "{bytes:?}");
        for given in [system(&["ab", "b"]), system(&["ab", "c"])] {
            assert_eq!(ask(&given, &bytes, &mut []), expected, "{bytes:?}");
        }
    }
}

/// Refusal 9 of multiply, before 10.
#[test]
fn missing_slots() {
    let given = system(&["ab", "b"]);
    let mut word = [FILL; 63];
    let answer = multiply(&given, &record("abBACa"), &mut word);
    assert_eq!(answer, refused(SLOT_MISSING, 4));
    assert_eq!(
        multiply(&[], &record("z"), &mut word),
        refused(SLOT_MISSING, 0)
    );
    assert_eq!(
        multiply(&given, &record("aZ"), &mut word),
        refused(SLOT_MISSING, 1)
    );
    assert_eq!(word, [FILL; 63]);
    let mut word = [FILL; 65];
    assert_eq!(multiply(&[], &record(""), &mut word), Answer::done());
    assert_eq!(word[..64], record(""));
    assert_eq!(word[64], FILL);
}

/// What ask answers for a target given as text, with the product buffer of this length after it.
fn asked(texts: &[&str], target: &str, length: usize) -> (Answer, Vec<u8>) {
    let mut product = vec![FILL; length];
    let answer = ask(&system(texts), &record(target), &mut product);
    (answer, product)
}

/// Refusal 15 of ask, before 11, and 11 where the system is reduced; both leave the product buffer.
#[test]
fn systems_not_reduced() {
    let not_reduced: [&[&str]; 6] = [
        &["ab", "b"],
        &["ab", "", "ab"],
        &["ab", "BA"],
        &["ab", "acb"],
        &["ab", "ac", "Bd"],
        &["aAab", "bBb"],
    ];
    for length in [0, 1, 63, 64, 65, 130] {
        let untouched = vec![FILL; length];
        for given in not_reduced {
            for target in ["", "ab", "d"] {
                let expected = (refused(SYSTEM_NOT_REDUCED, 0), untouched.clone());
                assert_eq!(asked(given, target, length), expected, "{given:?}");
            }
        }
        if length < 64 {
            let expected = (refused(PRODUCT_BUFFER_SHORT, 0), untouched.clone());
            assert_eq!(asked(&["ab", "ac", "ad"], "Cd", length), expected);
            assert_eq!(asked(&[], "a", length), expected);
        }
    }
}

/// Ask passes over blank slots and freely reduces words first; only 64 bytes are written for a member,
/// and none for others.
#[test]
fn systems_reduced_after_free_reduction() {
    let verdict = |verdict| Answer {
        verdict,
        ..Answer::default()
    };
    let systems: [&[&str]; 5] = [
        &["", "ab", "", "ac", "ad"],
        &["aA", "ab", "bBcC", "ac", "ad"],
        &["", "aAab", "", "acdD", "aBbd"],
        &["Zz", "cCab", "", "ac", "adzZ"],
        &["", "ab", "", "ac", "ad", "", "xX"],
    ];
    for given in systems {
        for target in ["Cd", "aACd", "CaAd", "CdbB"] {
            let (answer, product) = asked(given, target, 65);
            assert_eq!(answer, verdict(MEMBER), "{given:?}");
            assert_eq!(product[..64], record("De"), "{given:?}");
            assert_eq!(product[64], FILL);
        }
        let expected = (verdict(NOT_A_MEMBER), vec![FILL; 65]);
        assert_eq!(asked(given, "d", 65), expected, "{given:?}");
    }
    assert_eq!(asked(&["aAb"], "bb", 64).1, record("aa"));
    assert_eq!(asked(&[], "", 64), (verdict(MEMBER), record("").to_vec()));
    let expected = (verdict(NOT_A_MEMBER), vec![FILL; 64]);
    assert_eq!(asked(&["", "aA"], "a", 64), expected);
}

/// One and the same buffer as system and target: a word is independent and the product of itself
/// alone, an empty one is dependent and the empty product, and of a malformed record the system's
/// refusal comes first.
#[test]
fn systems_asked_about_themselves() {
    let letters = "ab".repeat(31) + "c";
    for (text, product) in [
        ("a", "a"),
        ("aBa", "a"),
        (&letters, "a"),
        ("", ""),
        ("aA", ""),
    ] {
        let both = record(text);
        let rank = product.len() as u64;
        let independent = rank;
        let (mut asked, mut words, mut decided) = ([FILL; 64], [FILL; 64], [FILL; 64]);
        let answer = ask(&both, &both, &mut asked);
        assert_eq!(answer.numbers(), [MEMBER, 0, 0, 0, 0, 0, 0], "{text}");
        let answer = member(&both, &both, &mut words, &mut [], &mut decided);
        let numbers = [MEMBER, 0, 0, 0, rank, independent, 0];
        assert_eq!(answer.numbers(), numbers, "{text}");
        assert_eq!([asked, decided], [record(product); 2], "{text}");
    }
    for (place, byte, number) in [
        (63, b'.', NO_LINE_FEED),
        (5, b' ', NEITHER_LETTER_NOR_STOP),
        (9, b'a', LETTER_AFTER_STOP),
    ] {
        let mut both = record("abc");
        both[place] = byte;
        let expected = refused(number, place);
        assert_eq!(ask(&both, &both, &mut []), expected);
        let answer = member(&both, &both, &mut [], &mut [], &mut []);
        assert_eq!(answer, expected);
    }
    let both = system(&["a", "b"]);
    let expected = refused(TARGET_OR_PRODUCT_MALFORMED, 0);
    assert_eq!(ask(&both, &both, &mut []), expected);
    assert_eq!(ask(&[], &[], &mut []), expected);
}

/// Refusals 10 and 11, with 10 before 11 and both before 12, 13 and 22.
#[test]
fn short_buffers() {
    let given = system(&["ab", "b"]);
    let target = record("a");
    let mut words = [FILL; 128];
    let refused_words = refused(WORDS_BUFFER_SHORT, 0);
    assert_eq!(tidy(&given, &mut words[..127]), refused_words);
    assert_eq!(reduce(&given, &mut words[..127], &mut []), refused_words);
    assert_eq!(
        member(&given, &target, &mut words[..127], &mut [], &mut []),
        refused_words
    );
    let log = b"a1b s00\n".repeat(100);
    for direction in Direction::BOTH {
        assert_eq!(
            replay(&given, &log, direction, &mut words[..127]),
            refused_words
        );
    }
    let long = record("a".repeat(63));
    assert_eq!(multiply(&given, &long, &mut words[..63]), refused_words);
    let mut product = [FILL; 63];
    let answer = member(&given, &target, &mut words, &mut [], &mut product);
    assert_eq!(answer, refused(PRODUCT_BUFFER_SHORT, 0));
    assert_eq!(words, [FILL; 128]);
    assert_eq!(product, [FILL; 63]);
}

/// Refusal 12 of multiply looks at the final word alone.
#[test]
fn too_long_in_multiply() {
    let given = system(&[&"ab".repeat(31), "c"]);
    let mut word = [FILL; 64];
    assert_eq!(
        multiply(&given, &record("abb"), &mut word),
        refused(WORD_TOO_LONG, 0)
    );
    assert_eq!(word, [FILL; 64]);
    let there_and_back = format!("{}b{}", "a".repeat(31), "A".repeat(31));
    let answer = multiply(&given, &record(there_and_back), &mut word);
    assert_eq!(answer, refused(WORD_TOO_LONG, 0));
    let there_and_back = format!("{}{}b", "a".repeat(31), "A".repeat(31));
    let answer = multiply(&given, &record(there_and_back), &mut word);
    assert_eq!(answer, Answer::done());
    assert_eq!(word, record("c"));
    let answer = multiply(&given, &record("ab"), &mut word);
    assert_eq!(answer, Answer::done());
    assert_eq!(word, record(format!("{}c", "ab".repeat(31))));
}

/// Show and the empty part that stands for refusal 14.
#[test]
fn shown_parts() {
    let reduced = system(&["", "a", "b"]);
    let given = system(&["aa", "aaa", "c"]);
    assert_eq!(show(&reduced, &given, b'a'), record("aa"));
    assert_eq!(show(&reduced, &given, b'b'), record("a"));
    for slot in [b'd', b'p', b'q', b'A', b'`', 0, 255] {
        assert!(show(&reduced, &given, slot).is_empty());
    }
    assert!(show(&reduced, &given[..128], b'a').is_empty());
    assert!(show(&reduced[..100], &given[..100], b'a').is_empty());
    assert!(show(&[], &[], b'a').is_empty());
    let long = system(&["ab"; 20]);
    assert_eq!(show(&long, &long, b'p'), record("ab"));
    assert!(show(&long, &long, b'q').is_empty());
}
