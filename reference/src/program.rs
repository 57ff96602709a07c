//! The program that reads standard input, as a function from its input to its output.
//! The last record is the target and the earlier ones are the system.

use crate::answers::{MEMBER, REFUSED};
use crate::logs::LOG_RECORD;
use crate::member;
use crate::records::{LONGEST_SYSTEM, RECORD};
use crate::refusals::{SYSTEM_TOO_LONG, SYSTEM_UNEVEN, TARGET_OR_PRODUCT_MALFORMED};

/// The most moves that the program's log buffer holds.
pub const MOVES_IN_LOG: usize = 8_192;
/// The most bytes that the program takes, those of the longest system and a target.
pub const LONGEST_INPUT: usize = LONGEST_SYSTEM + RECORD;

/// The word yes or the word no.
fn yes_or_no(yes: bool) -> &'static str {
    if yes {
        "yes"
    } else {
        "no"
    }
}

/// The line that tells of a refusal.
fn refusal_line(number: u64, place: u64) -> String {
    format!("refused {number} at {place}\n")
}

/// What the program prints for an input.
pub fn program(input: &[u8]) -> Vec<u8> {
    if input.is_empty() {
        return refusal_line(TARGET_OR_PRODUCT_MALFORMED, 0).into_bytes();
    }
    if input.len() > LONGEST_INPUT {
        return refusal_line(SYSTEM_TOO_LONG, 0).into_bytes();
    }
    if !input.len().is_multiple_of(RECORD) {
        return refusal_line(SYSTEM_UNEVEN, 0).into_bytes();
    }
    let (system, target) = input.split_at(input.len() - RECORD);
    let mut words = vec![0; system.len()];
    let mut log = vec![0; LOG_RECORD * MOVES_IN_LOG];
    let mut product = [0; RECORD];
    let answer = member(system, target, &mut words, &mut log, &mut product);
    if answer.verdict == REFUSED {
        return refusal_line(answer.number, answer.place).into_bytes();
    }
    let is_member = answer.verdict == MEMBER;
    let first_line = format!(
        "moves {} rank {} independent {} member {}\n",
        answer.moves,
        answer.rank,
        yes_or_no(answer.independent == 1),
        yes_or_no(is_member)
    );
    let mut output = first_line.into_bytes();
    output.extend_from_slice(&words);
    output.extend_from_slice(&log[..LOG_RECORD * answer.moves as usize]);
    if is_member {
        output.extend_from_slice(&product);
    }
    output
}

#[cfg(test)]
mod tests {
    use super::*;
    use crate::records::{system, MOST_RECORDS};

    /// What the program prints for the records given as texts.
    fn printed(texts: &[&str]) -> String {
        String::from_utf8(program(&system(texts))).expect("the output is text")
    }

    /// The five lines of P3, letter by letter.
    #[test]
    fn lines_of_p3() {
        let expected = "\
moves 1 rank 2 independent yes member yes
a..............................................................
b..............................................................
a4b s01
a..............................................................
";
        assert_eq!(printed(&["ab", "b", "a"]), expected);
    }

    /// Log records tell the rule and the new length: those of P4 with their lengths 1, 2, 1 and 0, and
    /// that of P5, which is a half-end move.
    #[test]
    fn lines_of_moves() {
        let output = printed(&["aa", "aaa", "a"]);
        let lines: Vec<&str> = output.lines().skip(3).take(4).collect();
        assert_eq!(lines, ["a2b s01", "b1a s02", "b1a s01", "a1b s00"]);
        let output = printed(&["ab", "ac", "Bd", "Cd"]);
        assert_eq!(output.lines().nth(4), Some("c1a h02"));
    }

    /// The log buffer has 65,536 bytes.
    #[test]
    fn length_of_the_log_buffer() {
        assert_eq!(LOG_RECORD * MOVES_IN_LOG, 65_536);
    }

    /// A target that is not a member gets no product, and a target alone has no slots before it.
    #[test]
    fn lines_without_product_or_slots() {
        let expected = format!(
            "moves 0 rank 1 independent yes member no\nab{}\n",
            ".".repeat(61)
        );
        assert_eq!(printed(&["ab", "ba"]), expected);
        let expected = format!(
            "moves 0 rank 0 independent yes member yes\n{}\n",
            ".".repeat(63)
        );
        assert_eq!(printed(&[""]), expected);
        let expected = "moves 0 rank 0 independent yes member no\n";
        assert_eq!(printed(&["a"]), expected);
    }

    /// A word that is blank or cancels to nothing makes a system dependent; one of no records is independent.
    #[test]
    fn first_lines_with_blank_slots() {
        let sixteen_blank_and_target = [""; MOST_RECORDS + 1];
        for (records, [moves, rank], [independent, member]) in [
            (&["aA", "b", "bb"][..], [0, 1], ["no", "yes"]),
            (&["aA", "b", "a"], [0, 1], ["no", "no"]),
            (&["", "aA"], [0, 0], ["no", "yes"]),
            (&["", "a"], [0, 0], ["no", "no"]),
            (&sixteen_blank_and_target, [0, 0], ["no", "yes"]),
            (&["ab", "", "b", "a"], [1, 2], ["no", "yes"]),
            (&["b", "b"], [0, 1], ["yes", "yes"]),
            (&[""], [0, 0], ["yes", "yes"]),
        ] {
            let expected =
                format!("moves {moves} rank {rank} independent {independent} member {member}\n");
            let output = printed(records);
            assert!(output.starts_with(&expected), "{records:?}: {output}");
        }
    }

    /// The refusals by the input's length, of which 1,088 bytes is the longest to pass.
    #[test]
    fn lengths() {
        let records = system(&["a"; 36]);
        let zeros = [0; 2304];
        for (length, expected) in [
            (0, "refused 6 at 0\n"),
            (1, "refused 1 at 0\n"),
            (63, "refused 1 at 0\n"),
            (65, "refused 1 at 0\n"),
            (1023, "refused 1 at 0\n"),
            (1025, "refused 1 at 0\n"),
            (1087, "refused 1 at 0\n"),
            (1089, "refused 2 at 0\n"),
            (1151, "refused 2 at 0\n"),
            (1152, "refused 2 at 0\n"),
            (1153, "refused 2 at 0\n"),
            (1500, "refused 2 at 0\n"),
            (1600, "refused 2 at 0\n"),
            (2300, "refused 2 at 0\n"),
        ] {
            for input in [&records[..length], &zeros[..length]] {
                assert_eq!(program(input), expected.as_bytes(), "{length}");
            }
        }
        let output = program(&records[..1024]);
        assert!(output.starts_with(b"moves 14 rank 1 independent no member yes\n"));
        let output = program(&records[..1088]);
        assert!(output.starts_with(b"moves 15 rank 1 independent no member yes\n"));
        let expected = b"refused 3 at 63\n";
        assert_eq!(program(&zeros[..1088]), expected);
    }

    /// The refusal by the input's length in the former order: uneven, then more than 17 records.
    fn former_refusal(length: usize) -> Option<&'static str> {
        if length == 0 {
            Some("refused 6 at 0\n")
        } else if !length.is_multiple_of(64) {
            Some("refused 1 at 0\n")
        } else if length / 64 > 17 {
            Some("refused 2 at 0\n")
        } else {
            None
        }
    }

    /// Only uneven inputs of more than 1,088 bytes are answered otherwise than in the former order.
    #[test]
    fn change_of_the_former_order() {
        let records = system(&["a"; 36]);
        let mut changed = 0;
        for length in 0..=2300 {
            let mut expected = former_refusal(length);
            if length > 1088 && !length.is_multiple_of(64) {
                assert_eq!(expected, Some("refused 1 at 0\n"), "{length}");
                expected = Some("refused 2 at 0\n");
                changed += 1;
            }
            let output = program(&records[..length]);
            match expected {
                Some(line) => assert_eq!(output, line.as_bytes(), "{length}"),
                None => assert!(output.starts_with(b"moves "), "{length}"),
            }
        }
        assert_eq!(changed, 1194);
    }

    /// Broken records are refused before a broken target, which gets 6 at its own place.
    #[test]
    fn broken_records() {
        let sound = system(&["ab", "b", "a"]);
        for (changes, expected) in [
            (&[(127, b'.')][..], "refused 3 at 127\n"),
            (&[(70, b'7')], "refused 4 at 70\n"),
            (&[(9, b'a')], "refused 5 at 9\n"),
            (&[(137, b'a')], "refused 6 at 9\n"),
            (&[(191, b'a')], "refused 6 at 63\n"),
            (&[(128, b'7'), (70, b'7')], "refused 4 at 70\n"),
        ] {
            let mut broken = sound.clone();
            for &(place, byte) in changes {
                broken[place] = byte;
            }
            assert_eq!(program(&broken), expected.as_bytes());
        }
    }
}
