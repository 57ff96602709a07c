//! Words of at most 63 letters a to z and A to Z, where a capital is the inverse of its letter.
//! Free reduction, inverses, products, and what two words share.

/// The most letters that a word may have.
pub const LONGEST: usize = 63;

/// A freely reduced word.
#[derive(Clone, Copy)]
pub struct Word {
    letters: [u8; LONGEST],
    length: u8,
}

/// The inverse of a letter.
#[inline]
pub fn inverse_letter(letter: u8) -> u8 {
    letter ^ 0x20
}

/// The letters backward with case changed.
pub fn inverse_letters(letters: &[u8]) -> Vec<u8> {
    letters.iter().rev().copied().map(inverse_letter).collect()
}

/// Writes the free reduction of the letters at the start of the room and returns its length.
#[inline]
pub fn free_reduction(letters: &[u8], room: &mut [u8]) -> usize {
    let mut length = 0;
    for &letter in letters {
        if length > 0 && room[length - 1] == inverse_letter(letter) {
            length -= 1;
        } else {
            room[length] = letter;
            length += 1;
        }
    }
    length
}

/// How many letters at the end of the left word cancel against the beginning of the right one.
#[inline]
pub fn cancellation(left: &[u8], right: &[u8]) -> usize {
    let pairs = left.iter().rev().zip(right);
    pairs.take_while(|(&l, &r)| l == inverse_letter(r)).count()
}

/// How many letters two words share at their beginnings.
#[inline]
pub fn common_beginning(one: &[u8], other: &[u8]) -> usize {
    let pairs = one.iter().zip(other);
    pairs.take_while(|(a, b)| a == b).count()
}

impl Word {
    /// The empty word.
    pub const EMPTY: Word = Word {
        letters: [0; LONGEST],
        length: 0,
    };

    /// The free reduction of at most 63 letters.
    #[inline]
    pub fn freely_reduced(letters: &[u8]) -> Word {
        let mut word = Word::EMPTY;
        word.length = free_reduction(letters, &mut word.letters) as u8;
        word
    }

    /// The letters of the word.
    #[inline]
    pub fn letters(&self) -> &[u8] {
        &self.letters[..self.len()]
    }

    /// The number of letters.
    #[inline]
    pub fn len(&self) -> usize {
        usize::from(self.length)
    }

    /// Whether the word has no letter.
    #[inline]
    pub fn is_empty(&self) -> bool {
        self.length == 0
    }

    /// The first letter and the one at another place, below 63, as one number; for a letter that the
    /// word does not have any byte may stand there.
    #[inline]
    pub fn first_letter_and(&self, place: usize) -> u16 {
        u16::from_le_bytes([self.letters[0], self.letters[place]])
    }

    /// The letters backward with case changed.
    #[inline]
    pub fn inverse(&self) -> Word {
        let mut inverse = *self;
        for (place, &letter) in inverse.letters.iter_mut().zip(self.letters().iter().rev()) {
            *place = inverse_letter(letter);
        }
        inverse
    }

    /// The free reduction of this word followed by the other, if it has at most 63 letters. Both are
    /// freely reduced, so letters cancel only where the two meet.
    #[inline]
    pub fn times(&self, other: &Word) -> Option<Word> {
        let cancelled = cancellation(self.letters(), other.letters());
        let kept = self.len() - cancelled;
        let rest = &other.letters()[cancelled..];
        let mut product = *self;
        let room = product.letters.get_mut(kept..kept + rest.len())?;
        room.copy_from_slice(rest);
        product.length = (kept + rest.len()) as u8;
        Some(product)
    }

    /// The two halves of a word of even length.
    pub fn halves(&self) -> Option<(Word, Word)> {
        let (first, second) = self.letters().split_at(self.len() / 2);
        (first.len() == second.len())
            .then(|| (Word::freely_reduced(first), Word::freely_reduced(second)))
    }

    /// Whether the word begins with the other.
    pub fn begins_with(&self, other: &Word) -> bool {
        self.letters().starts_with(other.letters())
    }

    /// Whether the word ends with the other.
    pub fn ends_with(&self, other: &Word) -> bool {
        self.letters().ends_with(other.letters())
    }
}

impl PartialEq for Word {
    /// Compares the letters.
    fn eq(&self, other: &Word) -> bool {
        self.letters() == other.letters()
    }
}

impl Eq for Word {}

impl std::fmt::Debug for Word {
    /// Shows the letters as text.
    fn fmt(&self, formatter: &mut std::fmt::Formatter<'_>) -> std::fmt::Result {
        write!(formatter, "{}", String::from_utf8_lossy(self.letters()))
    }
}

#[cfg(test)]
mod tests {
    use super::*;
    use crate::random::Random;

    /// The free reduction of a text.
    fn word(text: &str) -> Word {
        Word::freely_reduced(text.as_bytes())
    }

    /// The free reduction found by taking out one cancelling pair after another, the last first.
    fn by_removing_pairs(letters: &[u8]) -> Vec<u8> {
        let mut rest = letters.to_vec();
        while let Some(place) = (1..rest.len())
            .rev()
            .find(|&place| rest[place - 1] == inverse_letter(rest[place]))
        {
            rest.drain(place - 1..=place);
        }
        rest
    }

    /// Free reduction does not depend on the order of removal.
    #[test]
    fn free_reduction_in_another_order() {
        let mut random = Random::new(1);
        for _ in 0..2000 {
            let generators = 1 + random.below(3);
            let length = random.below(64);
            let letters = random.cancelling_letters(generators, length);
            let word = Word::freely_reduced(&letters);
            assert_eq!(word.letters(), by_removing_pairs(&letters));
        }
    }

    /// A product is the free reduction of the row of both words, and there is none over 63 letters.
    #[test]
    fn products() {
        let mut random = Random::new(2);
        for _ in 0..5000 {
            let generators = 1 + random.below(2);
            let [one, two] = [(); 2].map(|()| {
                let length = random.below(64);
                Word::freely_reduced(&random.reduced_letters(generators, length))
            });
            let expected = by_removing_pairs(&[one.letters(), two.letters()].concat());
            match one.times(&two) {
                Some(product) => assert_eq!(product.letters(), expected),
                None => assert!(expected.len() > LONGEST),
            }
        }
    }

    /// Small examples of inverses, halves and counts.
    #[test]
    fn small_examples() {
        assert_eq!(word("aAbBc"), word("c"));
        assert!(word("abBA").is_empty());
        assert_eq!(word("abC").inverse(), word("cBA"));
        assert_eq!(word("aB").inverse().inverse(), word("aB"));
        assert_eq!(word("abCd").halves(), Some((word("ab"), word("Cd"))));
        assert_eq!(word("abC").halves(), None);
        assert_eq!(cancellation(b"abc", b"CBd"), 2);
        assert_eq!(cancellation(b"ab", b"BA"), 2);
        assert_eq!(common_beginning(b"abc", b"abd"), 2);
    }
}
