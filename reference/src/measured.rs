//! The systems and targets of the measurements, the same in every run: for the bench and for GAP.
//! Words have lengths between two bounds. Independent ones are random words or come from such by
//! moves; of dependent ones half are products of the others.

use crate::random::{Kind, Random};
use crate::records::{freely_reduced, record, RECORD};
use crate::reduction::reduction;
use crate::words::Word;

/// A kind of system to be measured.
#[derive(Clone, Copy, Debug)]
pub struct Measured {
    pub generators: usize,
    pub records: usize,
    pub shortest: usize,
    pub longest: usize,
    pub independent: bool,
}

impl Measured {
    /// The kind that is measured with GAP too: 12 words of 5 to 30 letters over 3 generators.
    pub fn for_gap(independent: bool) -> Measured {
        Measured {
            generators: 3,
            records: 12,
            shortest: 5,
            longest: 30,
            independent,
        }
    }

    /// The word independent or the word dependent.
    pub fn dependence(&self) -> &'static str {
        if self.independent {
            "independent"
        } else {
            "dependent"
        }
    }

    /// The name of this kind in the bench's table.
    pub fn name(&self) -> String {
        let (records, generators) = (self.records, self.generators);
        let dependence = self.dependence();
        format!("{records} words, {generators} generators, {dependence}")
    }

    /// The first systems of this kind.
    pub fn systems(&self, count: usize) -> Vec<Vec<u8>> {
        let seed = 10 * self.records + self.generators;
        let mut random = Random::new(seed as u64);
        let mut systems = Vec::with_capacity(count);
        while systems.len() < count {
            let system = self.system(&mut random);
            if reduction(&system).answer.independent == u64::from(self.independent) {
                systems.push(system);
            }
        }
        systems
    }

    /// A random system that is likely to be of this kind.
    fn system(&self, random: &mut Random) -> Vec<u8> {
        if !self.independent {
            self.words_and_products(random)
        } else if random.below(2) == 0 {
            self.words(random, self.records, self.longest)
        } else {
            self.words_after_moves(random)
        }
    }

    /// Any words of these lengths.
    fn words(&self, random: &mut Random, records: usize, longest: usize) -> Vec<u8> {
        let generators = self.generators;
        random.system(Kind::Reduced, generators, records, self.shortest, longest)
    }

    /// Short words after many random moves that lead to no other lengths.
    fn words_after_moves(&self, random: &mut Random) -> Vec<u8> {
        let longest = self.shortest.max(self.longest / 3);
        let mut system = self.words(random, self.records, longest);
        let mut changed = freely_reduced(&system);
        let words = changed.words_mut();
        for _ in 0..6 * self.records {
            let step = random.any_move(self.records);
            let before = words[step.changed];
            step.make(words);
            if !self.has_right_length(&words[step.changed]) {
                words[step.changed] = before;
            }
        }
        changed.write(&mut system);
        system
    }

    /// Any words, each followed by a product of several of them.
    fn words_and_products(&self, random: &mut Random) -> Vec<u8> {
        let words = self.words(random, self.records.div_ceil(2), self.longest);
        let words = freely_reduced(&words);
        let mut system = Vec::with_capacity(RECORD * self.records);
        for word in words.words() {
            system.extend(record(word.letters()));
            let product = loop {
                let factors = random.between(2, 6);
                let product = random.product(words.words(), factors);
                if self.has_right_length(&product) {
                    break product;
                }
            };
            system.extend(record(product.letters()));
        }
        system.truncate(RECORD * self.records);
        system
    }

    /// Whether a word is neither too short nor too long.
    fn has_right_length(&self, word: &Word) -> bool {
        (self.shortest..=self.longest).contains(&word.len())
    }

    /// Targets for a system, by turns members and words that differ from a member in one letter.
    pub fn targets(&self, system: &[u8], count: usize) -> Vec<Word> {
        let mut random = Random::new(77);
        let words = freely_reduced(&reduction(system).words);
        (0..count)
            .map(|number| {
                let factors = random.between(1, 12);
                let product = random.product(words.words(), factors);
                match number % 2 {
                    0 => product,
                    _ => random.one_letter_changed(&product, self.generators),
                }
            })
            .collect()
    }
}

#[cfg(test)]
mod tests {
    use super::*;

    /// Systems are of their kind, and the same ones come again.
    #[test]
    fn systems_of_each_kind() {
        for independent in [false, true] {
            let kind = Measured::for_gap(independent);
            let systems = kind.systems(20);
            assert_eq!(systems, kind.systems(20));
            for system in systems {
                let words = freely_reduced(&system);
                assert_eq!(words.count(), 12);
                assert!(words.words().iter().all(|word| kind.has_right_length(word)));
                assert_eq!(kind.targets(&system, 30).len(), 30);
            }
        }
    }
}
