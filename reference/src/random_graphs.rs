//! Random systems whose folded graphs have few points for their letters: words with common beginnings,
//! conjugates, and powers of one root.

use crate::random::Random;
use crate::records::{record, RECORD};
use crate::words::inverse_letters;

impl Random {
    /// A system of words with lengths from the shortest to the longest, each of which begins as one and
    /// the same long word does and goes on with letters of its own.
    pub fn system_of_common_beginnings(
        &mut self,
        generators: usize,
        records: usize,
        shortest: usize,
        longest: usize,
    ) -> Vec<u8> {
        let stem = self.reduced_letters(generators, longest);
        let mut system = Vec::with_capacity(RECORD * records);
        for _ in 0..records {
            let length = self.between(shortest, longest);
            let common = self.below(length + 1);
            let own = self.reduced_letters(generators, length - common);
            system.extend(record([&stem[..common], &own].concat()));
        }
        system
    }

    /// A system of words up to a length, at least 1, each of which stands between a beginning of one and
    /// the same word and the inverse of that beginning.
    pub fn system_of_conjugates(
        &mut self,
        generators: usize,
        records: usize,
        longest: usize,
    ) -> Vec<u8> {
        let longest_around = self.below(longest / 2 + 1);
        let stem = self.reduced_letters(generators, longest_around);
        let mut system = Vec::with_capacity(RECORD * records);
        for _ in 0..records {
            let around = &stem[..self.below(longest_around + 1)];
            let room = longest - 2 * around.len();
            let length = self.below(room.min(12) + 1);
            let inside = self.reduced_letters(generators, length);
            let row = [around, &inside, &inverse_letters(around)].concat();
            system.extend(record(row));
        }
        system
    }

    /// A system of powers, up to a length, of one and the same word of a few letters and of its inverse.
    pub fn system_of_powers_of_a_word(
        &mut self,
        generators: usize,
        records: usize,
        longest: usize,
    ) -> Vec<u8> {
        let length = self.between(1, longest.min(8));
        let root = self.reduced_letters(generators, length);
        let inverse = inverse_letters(&root);
        let mut system = Vec::with_capacity(RECORD * records);
        for _ in 0..records {
            let exponent = self.below(longest / length + 1);
            let root = if self.below(2) == 0 { &root } else { &inverse };
            system.extend(record(root.repeat(exponent)));
        }
        system
    }
}

#[cfg(test)]
mod tests {
    use super::*;
    use crate::graph::Graph;
    use crate::records::freely_reduced;
    use crate::words::LONGEST;

    /// Systems have as many records as are asked for, and those of powers a graph of rank 1 at most.
    #[test]
    fn systems_of_each_kind() {
        let mut random = Random::new(61);
        for round in 0..300 {
            let (generators, records) = ([1, 2, 3, 26][round % 4], random.below(17));
            let systems = [
                random.system_of_common_beginnings(generators, records, 5, 63),
                random.system_of_conjugates(generators, records, LONGEST),
                random.system_of_powers_of_a_word(generators, records, LONGEST),
            ];
            let words = systems.map(|system| freely_reduced(&system));
            assert!(words.iter().all(|system| system.count() == records));
            assert!(Graph::folded(words[2].words()).rank() <= 1);
        }
    }
}
