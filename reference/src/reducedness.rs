//! The call test: is a system, after free reduction of its words, reduced in Nielsen's sense?
//! It goes by the definition, through all products of two and of three elements, not by the rules.

use crate::answers::Answer;
use crate::elements::elements;
use crate::records::read_system;
use crate::refusals::Refusal;
use crate::words::{cancellation, Word};

/// Whether the product of two elements cancels more than half of either.
fn cancels_more_than_half(left: &Word, right: &Word) -> bool {
    let cancelled = cancellation(left.letters(), right.letters());
    2 * cancelled > left.len() || 2 * cancelled > right.len()
}

/// Whether the product of three elements cancels the middle one wholly.
fn cancels_middle(left: &Word, middle: &Word, right: &Word) -> bool {
    let cancelled = cancellation(left.letters(), middle.letters());
    let rest = &middle.letters()[cancelled..];
    cancellation(rest, right.letters()) == rest.len()
}

/// Whether freely reduced words form a reduced system, blank slots passed over.
pub fn is_reduced(words: &[Word]) -> bool {
    let elements = elements(words);
    for left in &elements {
        for right in &elements {
            if left.slot != right.slot && cancels_more_than_half(&left.word, &right.word) {
                return false;
            }
        }
    }
    for middle in &elements {
        for left in elements.iter().filter(|left| !middle.is_own_inverse(left)) {
            for right in elements
                .iter()
                .filter(|right| !middle.is_own_inverse(right))
            {
                if cancels_middle(&left.word, &middle.word, &right.word) {
                    return false;
                }
            }
        }
    }
    true
}

/// Says whether the system is reduced after free reduction of its words.
pub fn test(system: &[u8]) -> Answer {
    test_by(is_reduced, system)
}

/// Says what test says, by another decision on freely reduced words.
pub fn test_by(is_reduced: impl Fn(&[Word]) -> bool, system: &[u8]) -> Answer {
    test_or_refuse(is_reduced, system).unwrap_or_else(Answer::refused)
}

/// Does what test promises, or gives the refusal.
fn test_or_refuse(is_reduced: impl Fn(&[Word]) -> bool, system: &[u8]) -> Result<Answer, Refusal> {
    let system = read_system(system)?;
    Ok(Answer {
        reduced: u64::from(is_reduced(system.words())),
        ..Answer::done()
    })
}

#[cfg(test)]
mod tests {
    use super::*;
    use crate::random::Random;
    use crate::words::inverse_letter;

    /// How many letters of each of the parts are left when the whole row is freely reduced.
    fn letters_left(parts: &[&Word]) -> Vec<usize> {
        let mut row: Vec<(u8, usize)> = Vec::new();
        for (number, part) in parts.iter().enumerate() {
            for &letter in part.letters() {
                match row.last() {
                    Some(&(last, _)) if last == inverse_letter(letter) => drop(row.pop()),
                    _ => row.push((letter, number)),
                }
            }
        }
        let left = |number| row.iter().filter(|(_, part)| *part == number).count();
        (0..parts.len()).map(left).collect()
    }

    /// The two counts agree with the letters left in the freely reduced row.
    #[test]
    fn counts_agree_with_whole_rows() {
        let mut random = Random::new(3);
        for _ in 0..20000 {
            let mut words = [Word::EMPTY; 3];
            for word in &mut words {
                let length = 1 + random.below(6);
                *word = Word::freely_reduced(&random.reduced_letters(2, length));
            }
            let [left, middle, right] = &words;
            let two = letters_left(&[left, middle]);
            let more_than_half = 2 * two[0] < left.len() || 2 * two[1] < middle.len();
            assert_eq!(cancels_more_than_half(left, middle), more_than_half);
            let three = letters_left(&[left, middle, right]);
            assert_eq!(cancels_middle(left, middle, right), three[1] == 0);
        }
    }

    /// Whether the words given as texts are reduced.
    fn reduced(texts: &[&str]) -> bool {
        let system = crate::records::system(texts);
        test(&system).reduced == 1
    }

    /// Small systems that are reduced, and some that are not.
    #[test]
    fn small_systems() {
        assert!(reduced(&[]));
        assert!(reduced(&["", ""]));
        assert!(reduced(&["ab"]));
        assert!(reduced(&["abA"]));
        assert!(reduced(&["ab", "ac", "ad"]));
        assert!(reduced(&["a", "BAc", "dbb"]));
        assert!(reduced(&["aA", "b"]));
        assert!(!reduced(&["ab", "b"]));
        assert!(!reduced(&["ab", "BA"]));
        assert!(!reduced(&["ab", "ab"]));
        assert!(!reduced(&["ab", "acb"]));
        assert!(!reduced(&["ab", "ac", "Bd"]));
    }
}
