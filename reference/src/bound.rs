//! How long a log can get. The requirement says: 'Let g be the letters of the given words after free
//! reduction and m the number of records: the moves are never more than 2 times m times (m - 1) times
//! (g + 1), plus g.' A log with room for that many moves is never refused as too short.

use crate::logs::LOG_RECORD;
use crate::records::{freely_reduced, MOST_RECORDS};
use crate::words::{Word, LONGEST};

/// The most letters that the words of a system may have together.
pub const MOST_LETTERS: usize = MOST_RECORDS * LONGEST;

/// The bound on the moves of a system of this many records, with this many letters after free reduction.
pub fn most_moves(records: usize, letters: usize) -> usize {
    2 * records * records.saturating_sub(1) * (letters + 1) + letters
}

/// The number of records of a well-formed system and of its letters after free reduction.
pub fn records_and_letters(system: &[u8]) -> (usize, usize) {
    let system = freely_reduced(system);
    let letters = system.words().iter().map(Word::len).sum();
    (system.count(), letters)
}

/// The bound on the moves of a well-formed system.
pub fn most_moves_of(system: &[u8]) -> usize {
    let (records, letters) = records_and_letters(system);
    most_moves(records, letters)
}

/// The length in bytes of a log that has room for the moves of every system.
pub fn longest_log() -> usize {
    LOG_RECORD * most_moves(MOST_RECORDS, MOST_LETTERS)
}

#[cfg(test)]
mod tests {
    use super::*;
    use crate::answers::DONE;
    use crate::random::Random;
    use crate::records::{system, RECORD};
    use crate::reduce;
    use crate::small;
    use std::fs;
    use std::path::Path;

    /// The moves that a system takes with a log of just as many records as the bound says.
    fn moves_within_the_bound(system: &[u8]) -> usize {
        let bound = most_moves_of(system);
        let mut log = vec![0; LOG_RECORD * bound];
        let answer = reduce(system, &mut vec![0; system.len()], &mut log);
        assert_eq!(answer.verdict, DONE, "{}", system.escape_ascii());
        let moves = answer.moves as usize;
        assert!(moves <= bound, "{}", system.escape_ascii());
        moves
    }

    /// The number that the header for C gives to one of its constants.
    fn in_the_header(name: &str) -> usize {
        let path = Path::new(env!("CARGO_MANIFEST_DIR")).join("../include/subgroups.h");
        let header = fs::read_to_string(path).expect("the header is there");
        let beginning = format!("{name} = ");
        let mut lines = header.lines().map(str::trim);
        let value = lines.find_map(|line| line.strip_prefix(&beginning));
        let value = value.unwrap_or_else(|| panic!("the header has no {name}"));
        let digits = value.split(',').next().expect("a comma ends the number");
        digits.parse().expect("the constant is a number")
    }

    /// The bound worked out by hand: for no records, for one, for few, and for the largest system.
    #[test]
    fn bounds_by_hand() {
        for (records, letters, expected) in [
            (0, 0, 0),
            (1, 0, 0),
            (1, 63, 63),
            (2, 0, 4),
            (2, 3, 19),
            (3, 8, 116),
            (16, 0, 480),
            (16, 1008, 485_328),
        ] {
            assert_eq!(most_moves(records, letters), expected);
        }
        assert_eq!(MOST_LETTERS, 1008);
        assert_eq!(longest_log(), 3_882_624);
    }

    /// The letters that count are those after free reduction, and blank records count as records.
    #[test]
    fn what_counts() {
        for (given, expected) in [
            (&[][..], (0, 0)),
            (&["aAb"], (1, 1)),
            (&["aA", "", "bcC"], (3, 1)),
        ] {
            assert_eq!(records_and_letters(&system(given)), expected);
        }
        let full = system(&[&"a".repeat(LONGEST)[..]; MOST_RECORDS]);
        assert_eq!(most_moves_of(&full), 485_328);
    }

    /// The header for C has the numbers of the largest system.
    #[test]
    fn constants_of_the_header() {
        let moves = in_the_header("SUBGROUPS_MOST_MOVES");
        assert_eq!(moves, most_moves(MOST_RECORDS, MOST_LETTERS));
        assert_eq!(in_the_header("SUBGROUPS_LONGEST_LOG"), longest_log());
        assert_eq!(in_the_header("SUBGROUPS_RECORD"), RECORD);
        assert_eq!(in_the_header("SUBGROUPS_MOVE"), LOG_RECORD);
    }

    /// All systems of two short words and of three shorter ones stay within the bound.
    #[test]
    fn small_systems() {
        for (generators, longest, records) in [(2, 3, 2), (1, 9, 2), (2, 2, 3), (2, 5, 1)] {
            small::for_each_system(generators, longest, records, |system| {
                moves_within_the_bound(system);
            });
        }
    }

    /// Random systems of all kinds stay within the bound.
    #[test]
    fn random_systems() {
        let mut random = Random::new(41);
        for generators in [1, 2, 3, 5] {
            for _ in 0..60 {
                moves_within_the_bound(&random.system_to_reduce(generators));
            }
        }
    }

    /// A bound of g alone would not do: 8 letters take 9 moves, and 68 letters take 128.
    #[test]
    fn more_moves_than_letters() {
        let power = "A".repeat(62) + "c";
        for (given, letters, moves) in [
            (["ABa", "abb", "aa"], 8, 9),
            ([&power, "cc", "CAC"], 68, 128),
        ] {
            let given = system(&given);
            assert_eq!(records_and_letters(&given), (3, letters));
            assert_eq!(moves_within_the_bound(&given), moves);
        }
    }
}
