//! A quick search for moves, which serves timing alone: nothing is judged by it. It follows the
//! search of the proved library, so that the bench compares like with like, and finds the moves
//! that the plain search of reduction.rs finds. It keeps the inverses of the words beside them, so
//! that it inverts nothing as it searches, and where a pair of slots is tried it looks at two
//! letters before it counts.

use crate::answers::Answer;
use crate::asking::ask_by;
use crate::logs::Rule;
use crate::membership::member_by;
use crate::moves::{Form, Move};
use crate::records::MOST_RECORDS;
use crate::reducedness::test_by;
use crate::reduction::reduce_by;
use crate::words::{common_beginning, Word};

/// What the search has found out about pairs of slots, and the move that it has found last.
struct Table {
    /// For each slot k and each slot i, whether no form of i shortens k.
    failed: [[bool; MOST_RECORDS]; MOST_RECORDS],
    /// For each slot, the inverse of its word.
    inverses: [Word; MOST_RECORDS],
    last: Option<Move>,
}

/// A slot's word and its inverse.
#[derive(Clone, Copy)]
struct Both<'a> {
    word: &'a Word,
    inverse: &'a Word,
}

/// The words of a system and their inverses.
#[derive(Clone, Copy)]
struct Slots<'a> {
    words: &'a [Word],
    inverses: &'a [Word],
}

/// How many letters two words share at their beginnings.
#[inline]
fn shared(one: &Word, other: &Word) -> usize {
    common_beginning(one.letters(), other.letters())
}

/// Whether two words agree in their letters at the beginning and at another place.
#[inline]
fn agree(one: &Word, other: &Word, place: usize) -> bool {
    one.first_letter_and(place) == other.first_letter_and(place)
}

/// For each form in order, the two words whose common beginning it cancels.
#[inline]
fn pairs_of_forms<'a>(changed: Both<'a>, other: Both<'a>) -> [(&'a Word, &'a Word); 4] {
    [
        (other.inverse, changed.word),
        (other.word, changed.word),
        (changed.inverse, other.word),
        (changed.inverse, other.inverse),
    ]
}

impl<'a> Slots<'a> {
    /// The word of a slot and its inverse.
    #[inline]
    fn at(self, slot: usize) -> Both<'a> {
        Both {
            word: &self.words[slot],
            inverse: &self.inverses[slot],
        }
    }

    /// Whether another slot's word or its inverse begins with the first half of this slot's letters.
    #[inline]
    fn has_half_elsewhere(self, slot: usize, letters: &Word) -> bool {
        let half = letters.len() / 2;
        let begins = |word| agree(word, letters, half - 1) && shared(word, letters) >= half;
        (0..self.words.len()).any(|other| {
            let Both { word, inverse } = self.at(other);
            other != slot && (begins(word) || begins(inverse))
        })
    }

    /// The shortest word of even length with both halves at the beginnings of others or inverses.
    fn shortest_with_both_halves_elsewhere(self) -> Option<usize> {
        let mut shortest: Option<usize> = None;
        for slot in 0..self.words.len() {
            let Both { word, inverse } = self.at(slot);
            if !word.is_empty()
                && word.len().is_multiple_of(2)
                && shortest.is_none_or(|best| word.len() < self.words[best].len())
                && self.has_half_elsewhere(slot, word)
                && self.has_half_elsewhere(slot, inverse)
            {
                shortest = Some(slot);
            }
        }
        shortest
    }

    /// The half-end move of a system in which nothing shortens, if a word qualifies.
    fn half_end_move(self) -> Option<Move> {
        let other = self.shortest_with_both_halves_elsewhere()?;
        let by = self.at(other).inverse;
        for changed in (0..self.words.len()).filter(|&changed| changed != other) {
            let Both { word, inverse } = self.at(changed);
            for (form, side) in [(Form::InverseAfter, inverse), (Form::WordBefore, word)] {
                if shared(side, by) >= by.len() / 2 {
                    return Some(Move {
                        changed,
                        form,
                        other,
                    });
                }
            }
        }
        None
    }
}

/// What the trial of a pair of slots gives.
enum Trial {
    /// The first form that shortens the changed slot by the other.
    Found(Form),
    /// No form shortens the changed slot, and whether none shortens the other one either.
    Failed { both_ways: bool },
}

/// Tries the forms by which one word may shorten another; a form that shortens one of the two has
/// more than half of the shorter one in common.
#[inline]
fn trial(changed: Both, other: Both) -> Trial {
    let pairs = pairs_of_forms(changed, other);
    let shorter = changed.word.len().min(other.word.len());
    if shorter == 0 || shorter >= 2 && no_two_letters_agree(pairs) {
        return Trial::Failed { both_ways: true };
    }
    let half = shorter / 2;
    let mut most = half;
    for (form, (one, two)) in Form::ALL.into_iter().zip(pairs) {
        if agree(one, two, half) {
            let count = shared(one, two);
            if 2 * count > other.word.len() {
                return Trial::Found(form);
            }
            most = most.max(count);
        }
    }
    let both_ways = 2 * most <= changed.word.len();
    Trial::Failed { both_ways }
}

/// Whether no form has two words that agree in their first two letters; the four answers are joined
/// as numbers, so that there is no branch for each.
#[inline]
fn no_two_letters_agree(pairs: [(&Word, &Word); 4]) -> bool {
    let [one, two, three, four] = pairs.map(|(one, two)| u8::from(agree(one, two, 1)));
    (one | two | three | four) == 0
}

impl Default for Table {
    /// The table before the first search.
    fn default() -> Table {
        Table {
            failed: Default::default(),
            inverses: [Word::EMPTY; MOST_RECORDS],
            last: None,
        }
    }
}

impl Table {
    /// The next move of the rules with its rule, if one applies; the move found before must have been
    /// made.
    fn next_move(&mut self, words: &[Word]) -> Option<(Rule, Move)> {
        match self.last {
            Some(step) => self.follow(step.changed, &words[step.changed]),
            None => self.form_inverses(words),
        }
        let shortening = self.first_shortening(words);
        let found = match shortening {
            Some(step) => Some((Rule::Shortening, step)),
            None => self.half_end_move(words).map(|step| (Rule::HalfEnd, step)),
        };
        self.last = found.map(|(_, step)| step);
        found
    }

    /// The half-end move of a system in which nothing shortens, if a word qualifies.
    fn half_end_move(&self, words: &[Word]) -> Option<Move> {
        let inverses = &self.inverses[..words.len()];
        Slots { words, inverses }.half_end_move()
    }

    /// Forms the inverses of all words.
    fn form_inverses(&mut self, words: &[Word]) {
        for (inverse, word) in self.inverses.iter_mut().zip(words) {
            *inverse = word.inverse();
        }
    }

    /// Forms the inverse of a changed slot's word again, and clears the slot's row and column, or
    /// fills them where the word is blank now.
    fn follow(&mut self, slot: usize, word: &Word) {
        self.inverses[slot] = word.inverse();
        self.failed[slot] = [word.is_empty(); MOST_RECORDS];
        for row in &mut self.failed {
            row[slot] = word.is_empty();
        }
    }

    /// The first move that makes a word strictly shorter, by changed slot, other slot and form.
    fn first_shortening(&mut self, words: &[Word]) -> Option<Move> {
        let inverses = &self.inverses[..words.len()];
        let slots = Slots { words, inverses };
        let last = self.last.map_or(0, |step| step.changed);
        for changed in 0..words.len() {
            // No slot before the one changed last is shortened by another than that one.
            let others = if changed < last {
                last..last + 1
            } else {
                0..words.len()
            };
            for other in others {
                if self.failed[changed][other] || other == changed {
                    continue;
                }
                match trial(slots.at(changed), slots.at(other)) {
                    Trial::Found(form) => {
                        return Some(Move {
                            changed,
                            form,
                            other,
                        })
                    }
                    Trial::Failed { both_ways } => {
                        self.failed[changed][other] = true;
                        self.failed[other][changed] |= both_ways;
                    }
                }
            }
        }
        None
    }
}

/// Does what reduce does, by the quick search.
pub fn reduce([system]: [&[u8]; 1], [words, log]: [&mut [u8]; 2]) -> Answer {
    let mut table = Table::default();
    reduce_by(|words| table.next_move(words), system, words, log)
}

/// Whether the quick search finds no move, as in a reduced system.
fn finds_no_move(words: &[Word]) -> bool {
    Table::default().next_move(words).is_none()
}

/// Says what test says, by whether the quick search finds a move.
pub fn test([system]: [&[u8]; 1], []: [&mut [u8]; 0]) -> Answer {
    test_by(finds_no_move, system)
}

/// Does what ask does, by whether the quick search finds a move.
pub fn ask(inputs: [&[u8]; 2], buffers: [&mut [u8]; 1]) -> Answer {
    ask_by(finds_no_move, inputs, buffers)
}

/// Does what member does, by the quick search.
pub fn member(inputs: [&[u8]; 2], buffers: [&mut [u8]; 3]) -> Answer {
    let mut table = Table::default();
    member_by(|words| table.next_move(words), inputs, buffers)
}

#[cfg(test)]
mod tests {
    use super::*;
    use crate::random::Random;
    use crate::records::freely_reduced;
    use crate::reducedness::is_reduced;
    use crate::reduction as plain;

    /// On random systems, many of them rich in half-end moves, the quick search finds the moves of the
    /// plain one, up to a reduced system.
    #[test]
    fn moves_of_the_plain_search() {
        let mut random = Random::new(23);
        let (mut shortenings, mut half_ends) = (0, 0);
        for round in 0..4000 {
            let records = random.below(MOST_RECORDS + 1);
            let generators = [1, 2, 3, 5, 26][random.below(5)];
            let system = match round % 4 {
                0 => random.system_of_shared_halves(generators, records, 31),
                1 => random.system_of_shared_halves(generators, records, 4),
                _ if round % 50 == 2 => random.system_of_powers(generators, records),
                _ => random.system_to_reduce(generators),
            };
            let mut system = freely_reduced(&system);
            let mut table = Table::default();
            loop {
                let found = plain::next_move(system.words());
                assert_eq!(table.next_move(system.words()), found);
                let Some((rule, step)) = found else { break };
                match rule {
                    Rule::Shortening => shortenings += 1,
                    Rule::HalfEnd => half_ends += 1,
                }
                assert!(step.make(system.words_mut()));
            }
            assert!(is_reduced(system.words()));
        }
        assert!(shortenings > 30_000, "{shortenings}");
        assert!(half_ends > 4_000, "{half_ends}");
    }
}
