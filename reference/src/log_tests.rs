//! Tests of logs: what reduce and member write of their moves, the refusals 7, 8, 12 and 22 of replay
//! with their order, places and untouched buffers, and refusal 13. The lengths are counted by hand.

use crate::answers::{Answer, DONE};
use crate::logs::LOG_RECORD;
use crate::records::{record, system};
use crate::refusals::*;
use crate::{member, reduce, replay, Direction};

const FILL: u8 = 0xEE;

/// The answer of a refusal.
fn refused(number: u64, place: usize) -> Answer {
    Answer::refused(Refusal::new(number, place))
}

/// What replay answers with room for all words, after a look that a refusal changes no byte.
fn answered(given: &[&str], log: &str, direction: Direction) -> Answer {
    let given = system(given);
    let mut words = vec![FILL; given.len() + 1];
    let answer = replay(&given, log.as_bytes(), direction, &mut words);
    if answer != Answer::done() {
        assert_eq!(words, vec![FILL; given.len() + 1], "{log:?}");
    }
    answer
}

/// Checks the answers forward and backward, each as number and place, or none where the log is run.
fn check(given: &[&str], log: &str, expected: [Option<(u64, usize)>; 2]) {
    for (direction, expected) in Direction::BOTH.into_iter().zip(expected) {
        let expected = match expected {
            Some((number, place)) => refused(number, place),
            None => Answer::done(),
        };
        let answer = answered(given, log, direction);
        assert_eq!(answer, expected, "{given:?} {log:?} {direction:?}");
    }
}

/// Replay gives this system.
fn leads_to(given: &[&str], log: &str, direction: Direction, expected: &[&str]) {
    let given = system(given);
    let mut words = vec![FILL; given.len()];
    let answer = replay(&given, log.as_bytes(), direction, &mut words);
    assert_eq!(answer, Answer::done(), "{log:?}");
    assert_eq!(words, system(expected), "{log:?}");
}

/// P3 needs 8 bytes for its log record, 7 get 13, and what is written is the move, its rule and the
/// length 01.
#[test]
fn log_of_p3() {
    let given = system(&["ab", "b"]);
    for length in 0..20 {
        let (mut words, mut log) = ([FILL; 128], vec![FILL; length]);
        let answer = reduce(&given, &mut words, &mut log);
        if length < 8 {
            assert_eq!(answer, refused(LOG_BUFFER_SHORT, 0), "{length}");
            assert_eq!((words, log), ([FILL; 128], vec![FILL; length]));
        } else {
            assert_eq!(answer.numbers(), [DONE, 0, 0, 1, 2, 1, 0]);
            assert_eq!(words, system(&["a", "b"])[..]);
            assert_eq!(&log[..8], b"a4b s01\n");
            assert!(log[8..].iter().all(|&byte| byte == FILL));
        }
    }
}

/// Shortenings to 10, 9 and 62 letters, and a half-end move to 14.
#[test]
fn lengths_of_two_digits() {
    let half = "abcdefghij";
    for (given, expected) in [
        (
            [format!("{half}k"), "K".to_string(), "z".to_string()],
            "a3b s10\n",
        ),
        (
            [half.to_string(), "J".to_string(), "z".to_string()],
            "a3b s09\n",
        ),
        (
            ["a".repeat(63), "A".to_string(), "z".to_string()],
            "a1b s62\n",
        ),
    ] {
        let given = system(&[&given[0], &given[1], &given[2]]);
        let mut log = [FILL; 8];
        reduce(&given, &mut [FILL; 192], &mut log);
        assert_eq!(log, expected.as_bytes());
    }
    let [one, two, three] = [("a", "b"), ("a", "c"), ("B", "d")].map(|(first, second)| {
        let letters = |letter: &str| letter.repeat(7);
        letters(first) + &letters(second)
    });
    let mut log = [FILL; 8];
    let answer = reduce(&system(&[&one, &two, &three]), &mut [FILL; 192], &mut log);
    assert_eq!((answer.moves, &log), (1, b"c1a h14\n"));
}

/// Refusal 13 keeps the moves that fitted, each in its 8 bytes, and touches nothing else.
#[test]
fn short_log_keeps_what_fitted() {
    let given = system(&["aa", "aaa"]);
    let whole = b"a2b s01\nb1a s02\nb1a s01\na1b s00\n";
    for length in 0..48 {
        let (mut words, mut product) = ([FILL; 128], [FILL; 64]);
        let mut log = vec![FILL; length];
        let mut other_log = vec![FILL; length];
        let answer = reduce(&given, &mut words, &mut log);
        let mut same_words = [FILL; 128];
        let member_answer = member(
            &given,
            &record("a"),
            &mut same_words,
            &mut other_log,
            &mut product,
        );
        let kept = 8 * (length / 8).min(4);
        assert_eq!(log[..kept], whole[..kept]);
        assert!(log[kept..].iter().all(|&byte| byte == FILL));
        assert_eq!(log, other_log);
        if length < 32 {
            assert_eq!(answer, refused(LOG_BUFFER_SHORT, 0));
            assert_eq!(member_answer, refused(LOG_BUFFER_SHORT, 0));
            assert_eq!((words, product), ([FILL; 128], [FILL; 64]));
        } else {
            assert_eq!(answer.numbers(), [DONE, 0, 0, 4, 1, 0, 0]);
            assert_eq!(product, record("b"));
        }
        assert_eq!(words, same_words);
    }
}

/// Refusal 7 of every length that is not a multiple of 8, before 8, 10, 12 and 22.
#[test]
fn uneven_logs() {
    let given = system(&["ab", "b", "c"]);
    for log in ["a1b s03\n".repeat(6), "?".repeat(48)] {
        for length in (0..=48).filter(|length| length % 8 > 0) {
            for direction in Direction::BOTH {
                let answer = replay(&given, &log.as_bytes()[..length], direction, &mut []);
                assert_eq!(answer, refused(LOG_UNEVEN, 0), "{length}");
            }
        }
    }
    for length in [4, 12, 20] {
        let log = &b"a1b\n".repeat(5)[..length];
        let answer = replay(&given, log, Direction::Forward, &mut []);
        assert_eq!(answer, refused(LOG_UNEVEN, 0), "{length}");
    }
}

/// The bytes that may stand at each place of a log record over a system of three slots that changes
/// slot b by slot a, while its other bytes stay.
const ALLOWED: [&[u8]; LOG_RECORD] = [
    b"bc",
    b"1234",
    b"ac",
    b" ",
    b"sh",
    b"0123456789",
    b"0123456789",
    b"\n",
];

/// Refusal 8 at every byte of a log record with every byte that may not stand there, and with no
/// other, before 10, 12 and 22.
#[test]
fn one_byte_of_a_log_record() {
    let given = system(&["ab", "b", "c"]);
    for (place, allowed) in ALLOWED.iter().enumerate() {
        for byte in 0..=255 {
            let mut log = *b"a1b s03\nb3a s03\nc4a s03\n";
            log[8 + place] = byte;
            for direction in Direction::BOTH {
                let answer = replay(&given, &log, direction, &mut []);
                let expected = match allowed.contains(&byte) {
                    true => refused(WORDS_BUFFER_SHORT, 0),
                    false => refused(LOG_RECORD_MALFORMED, 8),
                };
                assert_eq!(answer, expected, "{place} {byte}");
            }
        }
    }
}

/// Refusal 8 of log records that are broken in other ways, and of the first one that is broken.
#[test]
fn malformed_log_records() {
    let given = ["ab", "b", "c"];
    for bad in [
        "a1a s01\n",
        "a0b s01\n",
        "a5b s01\n",
        "A1b s01\n",
        "a1B s01\n",
        "d1a s01\n",
        "a1d s01\n",
        "q1a s01\n",
        "`1a s01\n",
        "a1` s01\n",
        "a1b.s01\n",
        "a1bs01 \n",
        "a1b S01\n",
        "a1b H01\n",
        "a1b t01\n",
        "a1b  01\n",
        "a1b s 1\n",
        "a1b s1 \n",
        "a1b s-1\n",
        "a1b s0a\n",
        "a1b s01.",
        "a1b s01\r",
        "a1b\na1b\n",
        "\n10s b1a",
        "a1b s1\n\n",
        "........",
    ] {
        assert_eq!(bad.len(), LOG_RECORD, "{bad:?}");
        let expected = [Some((LOG_RECORD_MALFORMED, 16)); 2];
        check(
            &given,
            &format!("a1b s03\nc4a s99\n{bad}a1a s00\n"),
            expected,
        );
        let expected = [Some((LOG_RECORD_MALFORMED, 0)); 2];
        check(&given, &format!("{bad}a1a s00\n"), expected);
    }
    check(&[], "a1b s01\n", [Some((LOG_RECORD_MALFORMED, 0)); 2]);
    check(&["ab"], "a1b s01\n", [Some((LOG_RECORD_MALFORMED, 0)); 2]);
    check(&["ab"], "", [None; 2]);
    check(&[], "", [None; 2]);
}

/// Refusal 12 of replay with the move's number, whichever way the log is run.
#[test]
fn too_long() {
    let long = "a".repeat(60);
    let given = [&long[..], "a"];
    let log = "a1b s61\na3b s62\na3b s63\na3b s64\na3b s65\n";
    let answer = answered(&given, log, Direction::Forward);
    assert_eq!(answer, refused(WORD_TOO_LONG, 4));
    let log = "a4b s64\na4b s63\na4b s62\na4b s61\na2b s60\n";
    let answer = answered(&given, log, Direction::Backward);
    assert_eq!(answer, refused(WORD_TOO_LONG, 2));
    let three = &log[2 * LOG_RECORD..];
    leads_to(&given, three, Direction::Backward, &[&"a".repeat(63), "a"]);
}

/// Replay forward compares the length of the word that the move puts into its slot, backward that of
/// the word before the undoing, and gives 22 at the first move run where it is another.
#[test]
fn lengths_that_differ() {
    let differs = |number| Some((LENGTH_DIFFERS, number));
    let log = "a1b s03\na3b s04\nb4a s03\n";
    leads_to(&["ab", "c"], log, Direction::Forward, &["cabc", "BAC"]);
    leads_to(&["cabc", "BAC"], log, Direction::Backward, &["ab", "c"]);
    check(&["a", "c"], "a1b s02\n", [None, differs(1)]);
    check(&["a", "c"], "a1b s01\n", [differs(1), None]);
    check(&["ca", "c"], "a2b h01\n", [None, differs(1)]);
    check(&["ca", "c"], "a1b h02\n", [differs(1), None]);
    check(&["c", "c"], "a2b s00\n", [None, differs(1)]);
    check(&["", "c"], "a2b s00\n", [differs(1), None]);
    check(&["", ""], "a2b s00\nb1a h00\n", [None, None]);
    check(&["aAb", "c"], "a1b s02\n", [None, differs(1)]);
    check(&["aAb", "c"], "a1b s01\n", [differs(1), None]);
}

/// Of several lengths that differ the one of the first move run counts, with its number in the log.
#[test]
fn first_length_that_differs() {
    let differs = |number| Some((LENGTH_DIFFERS, number));
    let given = ["a", "c"];
    // Forward a is ca, cca, ccca; backward it is undone from a: Ca, CCa, CCCa.
    check(&given, "a1b s02\na1b s03\na1b s04\n", [None, differs(3)]);
    check(&given, "a1b s03\na1b s02\na1b s01\n", [differs(1), None]);
    check(
        &given,
        "a1b s02\na1b s02\na1b s01\n",
        [differs(2), differs(1)],
    );
    check(
        &given,
        "a1b s02\na1b s03\na1b s01\n",
        [differs(3), differs(2)],
    );
    check(
        &given,
        "a1b s00\na1b s02\na1b s01\n",
        [differs(1), differs(1)],
    );
    check(
        &given,
        "a1b s00\na1b s00\na1b s01\n",
        [differs(1), differs(2)],
    );
    check(
        &given,
        "a1b s00\na1b s00\na1b s00\n",
        [differs(1), differs(3)],
    );
}

/// The digits from 64 to 99 pass the shape and get 22, or 12 where it applies.
#[test]
fn lengths_of_no_word() {
    let long = "a".repeat(63);
    for length in 64..=99 {
        let log = format!("a1b s{length}\n");
        check(&["ab", "c"], &log, [Some((LENGTH_DIFFERS, 1)); 2]);
        check(&[&long, "b"], &log, [Some((WORD_TOO_LONG, 1)); 2]);
    }
    // A word that would have 64 letters gets 12, though its log record tells just that length.
    check(
        &[&long, "a"],
        "a1b s64\n",
        [Some((WORD_TOO_LONG, 1)), Some((LENGTH_DIFFERS, 1))],
    );
    check(
        &[&long, "a"],
        "a2b s64\n",
        [Some((LENGTH_DIFFERS, 1)), Some((WORD_TOO_LONG, 1))],
    );
}

/// At one move 12 comes before 22, and of two moves the one that is run first counts.
#[test]
fn too_long_and_length_that_differs() {
    let long = "a".repeat(63);
    let given = [&long[..], "b", "c"];
    let too_long = |number| Some((WORD_TOO_LONG, number));
    let differs = |number| Some((LENGTH_DIFFERS, number));
    for length in ["00", "01", "62", "63", "64", "99"] {
        check(&given, &format!("a1b s{length}\n"), [too_long(1); 2]);
    }
    // Forward b is cb, backward Cb is undone from b; a is too long either way.
    check(&given, "b1c s02\na1b s63\n", [too_long(2), too_long(2)]);
    check(&given, "b1c s01\na1b s63\n", [differs(1), too_long(2)]);
    check(&given, "a1b s63\nb1c s02\n", [too_long(1), differs(2)]);
    check(&given, "a1b s63\nb1c s01\n", [too_long(1), too_long(1)]);
    check(
        &given,
        "b1c s02\na1b s63\nb1c s09\n",
        [too_long(2), differs(3)],
    );
    check(
        &given,
        "b1c s09\na1b s63\nb1c s01\n",
        [differs(1), too_long(2)],
    );
}

/// Either letter is taken at any move: whether the move shortens is not asked.
#[test]
fn exchanged_letters() {
    let given = ["aa", "aaa"];
    let reduced = ["", "a"];
    for number in 0..16 {
        let letters = [0, 1, 2, 3].map(|place| match number >> place & 1 {
            0 => 's',
            _ => 'h',
        });
        let [one, two, three, four] = letters;
        let log = format!("a2b {one}01\nb1a {two}02\nb1a {three}01\na1b {four}00\n");
        leads_to(&given, &log, Direction::Forward, &reduced);
        leads_to(&reduced, &log, Direction::Backward, &given);
    }
    for letter in ["s", "h"] {
        let log = format!("c1a {letter}02\n");
        leads_to(
            &["ab", "ac", "Bd"],
            &log,
            Direction::Forward,
            &["ab", "ac", "ad"],
        );
        leads_to(
            &["ab", "ac", "ad"],
            &log,
            Direction::Backward,
            &["ab", "ac", "Bd"],
        );
        leads_to(
            &["a", "b"],
            &format!("a1b {letter}02\n"),
            Direction::Forward,
            &["ba", "b"],
        );
    }
}

/// The worked sheets R1 to R9.
#[test]
fn worked_sheets_of_replay() {
    use Direction::{Backward, Forward};
    leads_to(&["ab", "b"], "a4b s01\n", Forward, &["a", "b"]);
    leads_to(&["a", "b"], "a4b s01\n", Backward, &["ab", "b"]);
    leads_to(&["ab", "b"], "a4b h01\n", Forward, &["a", "b"]);
    let thirty_two = "a".repeat(32);
    let thirty_two = [&thirty_two[..], &thirty_two[..]];
    let three_moves = "a1b h02\na1b h02\na1b h04\n";
    for (given, log, direction, number, place) in [
        (["ab", "b"], "a4b s02\n", Forward, LENGTH_DIFFERS, 1),
        (["a", "b"], "a4b s02\n", Backward, LENGTH_DIFFERS, 1),
        (["ccca", "c"], three_moves, Backward, LENGTH_DIFFERS, 2),
        (thirty_two, "a3b s63\n", Forward, WORD_TOO_LONG, 1),
        (
            ["ab", "b"],
            "a4b s01\na4b s 2\n",
            Forward,
            LOG_RECORD_MALFORMED,
            8,
        ),
        (["ab", "b"], "a4b\n", Forward, LOG_UNEVEN, 0),
    ] {
        assert_eq!(
            answered(&given, log, direction),
            refused(number, place),
            "{log:?}"
        );
    }
}
