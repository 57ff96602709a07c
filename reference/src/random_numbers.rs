//! Random rows and systems of signed generator numbers, with little and with much that cancels.

use crate::numbers::{record_of_numbers, NUMBERS_RECORD};
use crate::random::{Kind, Random};
use crate::records::MOST_RECORDS;
use std::collections::BTreeSet;

/// The largest numbers up to which random generators are chosen: those of letters, some more, and all.
pub const LARGEST_GENERATORS: [usize; 5] = [26, 27, 40, 300, 1000];

impl Random {
    /// This many different generators from 1 up to a largest one, at least as many and at most 26.
    pub fn generators(&mut self, count: usize, largest: usize) -> Vec<i16> {
        let mut chosen = BTreeSet::new();
        while chosen.len() < count {
            chosen.insert(self.between(1, largest) as i16);
        }
        chosen.into_iter().collect()
    }

    /// A row of these generators and their negatives, chosen as the letters of a word of this kind are.
    pub fn row(&mut self, kind: Kind, generators: &[i16], length: usize) -> Vec<i16> {
        let letters = self.letters(kind, generators.len(), length);
        let number = |letter: u8| match letter.is_ascii_lowercase() {
            true => generators[usize::from(letter - b'a')],
            false => -generators[usize::from(letter - b'A')],
        };
        letters.into_iter().map(number).collect()
    }

    /// The record of such a row.
    pub fn record_of_row(
        &mut self,
        kind: Kind,
        generators: &[i16],
        length: usize,
    ) -> [u8; NUMBERS_RECORD] {
        record_of_numbers(self.row(kind, generators, length))
    }

    /// A system of numbers with generators up to a largest one, at least 26, of any kind and size.
    pub fn system_of_numbers(&mut self, largest: usize) -> Vec<u8> {
        let lengths = [(0, 3), (0, 8), (4, 16), (0, 63), (55, 63), (63, 63)];
        let (shortest, longest) = lengths[self.below(lengths.len())];
        let kind = Kind::ALL[self.below(Kind::ALL.len())];
        let count = [1, 2, 3, 5, 26][self.below(5)];
        let generators = self.generators(count, largest);
        let mut system = Vec::new();
        for _ in 0..self.below(MOST_RECORDS + 1) {
            let length = self.between(shortest, longest);
            system.extend(self.record_of_row(kind, &generators, length));
        }
        system
    }
}

#[cfg(test)]
mod tests {
    use super::*;
    use crate::numbers::LONGEST_SYSTEM_OF_NUMBERS;
    use crate::words::LONGEST;

    /// Systems are as long as they may be, and the generators are different and within their bounds.
    #[test]
    fn systems_and_generators() {
        let mut random = Random::new(31);
        for largest in LARGEST_GENERATORS {
            for _ in 0..200 {
                let generators = random.generators(26, largest);
                assert!(generators.windows(2).all(|pair| pair[0] < pair[1]));
                assert!(1 <= generators[0] && usize::from(generators[25] as u16) <= largest);
                let system = random.system_of_numbers(largest);
                assert!(system.len().is_multiple_of(NUMBERS_RECORD));
                assert!(system.len() <= LONGEST_SYSTEM_OF_NUMBERS);
            }
        }
        assert_eq!(random.row(Kind::Uniform, &[5], LONGEST).len(), LONGEST);
    }
}
