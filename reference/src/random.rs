//! A small deterministic source of random numbers, words, systems and targets.
//! The same seed gives the same inputs everywhere.

use crate::moves::{Form, Move};
use crate::records::{freely_reduced, record, MOST_RECORDS, RECORD};
use crate::words::{inverse_letter, Word, LONGEST};

/// A deterministic source of random numbers.
pub struct Random {
    state: u64,
}

/// How the letters of a random word are chosen.
#[derive(Clone, Copy, Debug, PartialEq, Eq)]
pub enum Kind {
    /// Each letter alike.
    Uniform,
    /// Freely reduced.
    Reduced,
    /// Mostly letters that cancel with those before them.
    Cancelling,
}

impl Kind {
    /// The three kinds.
    pub const ALL: [Kind; 3] = [Kind::Uniform, Kind::Reduced, Kind::Cancelling];
}

impl Random {
    /// A source that begins with this seed.
    pub fn new(seed: u64) -> Random {
        Random { state: seed }
    }

    /// The next random number.
    pub fn number(&mut self) -> u64 {
        self.state = self.state.wrapping_add(0x9E37_79B9_7F4A_7C15);
        let mut mixed = self.state;
        mixed = (mixed ^ (mixed >> 30)).wrapping_mul(0xBF58_476D_1CE4_E5B9);
        mixed = (mixed ^ (mixed >> 27)).wrapping_mul(0x94D0_49BB_1331_11EB);
        mixed ^ (mixed >> 31)
    }

    /// A random number from 0 up to but not including the bound, which is not 0.
    pub fn below(&mut self, bound: usize) -> usize {
        ((u128::from(self.number()) * bound as u128) >> 64) as usize
    }

    /// A random number from the first to the last, both included.
    pub fn between(&mut self, first: usize, last: usize) -> usize {
        first + self.below(last - first + 1)
    }

    /// A random byte.
    pub fn byte(&mut self) -> u8 {
        self.number() as u8
    }

    /// A random letter or capital of the first generators.
    pub fn letter(&mut self, generators: usize) -> u8 {
        let choice = self.below(2 * generators);
        let letter = b'a' + (choice / 2) as u8;
        if choice.is_multiple_of(2) {
            letter
        } else {
            inverse_letter(letter)
        }
    }

    /// Letters chosen alike.
    pub fn uniform_letters(&mut self, generators: usize, length: usize) -> Vec<u8> {
        (0..length).map(|_| self.letter(generators)).collect()
    }

    /// Letters of which no neighbours cancel.
    pub fn reduced_letters(&mut self, generators: usize, length: usize) -> Vec<u8> {
        let mut letters: Vec<u8> = Vec::with_capacity(length);
        while letters.len() < length {
            let letter = self.letter(generators);
            if letters.last() != Some(&inverse_letter(letter)) {
                letters.push(letter);
            }
        }
        letters
    }

    /// Letters of which about half cancel with those before them.
    pub fn cancelling_letters(&mut self, generators: usize, length: usize) -> Vec<u8> {
        let mut letters = Vec::with_capacity(length);
        let mut left: Vec<u8> = Vec::new();
        for _ in 0..length {
            let letter = match left.last() {
                Some(&last) if self.below(16) < 7 => inverse_letter(last),
                _ => self.letter(generators),
            };
            if left.last() == Some(&inverse_letter(letter)) {
                left.pop();
            } else {
                left.push(letter);
            }
            letters.push(letter);
        }
        letters
    }

    /// Letters of this kind.
    pub fn letters(&mut self, kind: Kind, generators: usize, length: usize) -> Vec<u8> {
        match kind {
            Kind::Uniform => self.uniform_letters(generators, length),
            Kind::Reduced => self.reduced_letters(generators, length),
            Kind::Cancelling => self.cancelling_letters(generators, length),
        }
    }

    /// A system of records of this kind, with lengths from the shortest to the longest.
    pub fn system(
        &mut self,
        kind: Kind,
        generators: usize,
        records: usize,
        shortest: usize,
        longest: usize,
    ) -> Vec<u8> {
        let mut system = Vec::with_capacity(RECORD * records);
        for _ in 0..records {
            let length = self.between(shortest, longest);
            system.extend(record(self.letters(kind, generators, length)));
        }
        system
    }

    /// A system whose words are two halves each, taken from a few that they share.
    pub fn system_of_shared_halves(
        &mut self,
        generators: usize,
        records: usize,
        longest_half: usize,
    ) -> Vec<u8> {
        let half = self.between(1, longest_half);
        let count = self.between(2, 2 + records);
        let halves: Vec<Vec<u8>> = (0..count)
            .map(|_| self.reduced_letters(generators, half))
            .collect();
        let mut system = Vec::with_capacity(RECORD * records);
        for _ in 0..records {
            let first = Word::freely_reduced(&halves[self.below(count)]);
            let second = Word::freely_reduced(&halves[self.below(count)]).inverse();
            let middle = match self.below(3) {
                0 if 2 * half < LONGEST => self.uniform_letters(generators, 1),
                _ => Vec::new(),
            };
            let row = [first.letters(), &middle, second.letters()].concat();
            system.extend(record(row));
        }
        system
    }

    /// One of the words or its inverse.
    pub fn factor(&mut self, words: &[Word]) -> Word {
        let word = words[self.below(words.len())];
        match self.below(2) {
            0 => word,
            _ => word.inverse(),
        }
    }

    /// A word that is a product of the given words and inverses, of at most 63 letters.
    pub fn product(&mut self, words: &[Word], factors: usize) -> Word {
        let mut product = Word::EMPTY;
        for _ in 0..factors {
            if words.is_empty() {
                break;
            }
            let factor = self.factor(words);
            product = product.times(&factor).unwrap_or(product);
        }
        product
    }

    /// The word with one letter changed, freely reduced.
    pub fn one_letter_changed(&mut self, word: &Word, generators: usize) -> Word {
        let mut letters = word.letters().to_vec();
        if !letters.is_empty() {
            let place = self.below(letters.len());
            letters[place] = self.letter(generators);
        }
        Word::freely_reduced(&letters)
    }

    /// The letters with pairs that cancel put in between, at most 63 in all.
    pub fn unreduced(&mut self, letters: &[u8], generators: usize) -> Vec<u8> {
        let mut letters = letters.to_vec();
        for _ in 0..self.below((LONGEST - letters.len()) / 2 + 1) {
            let letter = self.letter(generators);
            let place = self.below(letters.len() + 1);
            letters.splice(place..place, [letter, inverse_letter(letter)]);
        }
        letters
    }

    /// A system whose records are freely reduced to these words and have pairs that cancel in between.
    pub fn unreduced_system(&mut self, words: &[Word], generators: usize) -> Vec<u8> {
        let spelling = |word: &Word| record(self.unreduced(word.letters(), generators));
        words.iter().flat_map(spelling).collect()
    }

    /// A system of beginnings of a few long words, each followed by the inverse of another one.
    pub fn system_of_shared_beginnings(&mut self, generators: usize, records: usize) -> Vec<u8> {
        let longest = self.between(2, LONGEST / 2);
        let stems: Vec<Vec<u8>> = (0..self.between(2, 5))
            .map(|_| self.reduced_letters(generators, longest))
            .collect();
        let mut system = Vec::with_capacity(RECORD * records);
        for _ in 0..records {
            let length = self.between(1, longest);
            let other_length = match self.below(3) {
                0 => self.between(1, longest),
                _ => length,
            };
            let first = &stems[self.below(stems.len())][..length];
            let second = &stems[self.below(stems.len())][..other_length];
            let second = Word::freely_reduced(second).inverse();
            system.extend(record([first, second.letters()].concat()));
        }
        system
    }

    /// A system in which about half of the words are products of the others.
    pub fn dependent_system(
        &mut self,
        generators: usize,
        records: usize,
        shortest: usize,
        longest: usize,
    ) -> Vec<u8> {
        let free = self.system(Kind::Reduced, generators, records / 2, shortest, longest);
        let free = freely_reduced(&free);
        let mut system = Vec::with_capacity(RECORD * records);
        for slot in 0..records {
            let factors = self.between(0, 6);
            let word = match free.words().get(slot / 2) {
                Some(word) if slot % 2 == 0 => *word,
                _ => self.product(free.words(), factors),
            };
            system.extend(record(word.letters()));
        }
        system
    }

    /// A system of short words after many random moves.
    pub fn scrambled_system(&mut self, generators: usize, records: usize) -> Vec<u8> {
        let mut system = self.system(Kind::Uniform, generators, records, 0, 12);
        let mut scrambled = freely_reduced(&system);
        if records > 1 {
            for _ in 0..self.below(8 * records) {
                self.any_move(records).make(scrambled.words_mut());
            }
        }
        scrambled.write(&mut system);
        system
    }

    /// A system of long powers of one generator and its inverse, which takes very many moves.
    pub fn system_of_powers(&mut self, generators: usize, records: usize) -> Vec<u8> {
        let letter = self.letter(generators);
        let mut system = Vec::with_capacity(RECORD * records);
        for _ in 0..records {
            let length = self.between(LONGEST - 5, LONGEST);
            let letter = match self.below(2) {
                0 => letter,
                _ => inverse_letter(letter),
            };
            system.extend(record(vec![letter; length]));
        }
        system
    }

    /// A system over this many generators of one of many kinds, with much or little to reduce.
    pub fn system_to_reduce(&mut self, generators: usize) -> Vec<u8> {
        let records = self.below(MOST_RECORDS + 1);
        let lengths = [(0, 3), (1, 8), (4, 20), (0, 63), (56, 63)];
        let (shortest, longest) = lengths[self.below(lengths.len())];
        match self.below(6) {
            0 => {
                let kind = Kind::ALL[self.below(Kind::ALL.len())];
                self.system(kind, generators, records, shortest, longest)
            }
            1 => self.dependent_system(generators, records, shortest, longest),
            2 => self.scrambled_system(generators, records),
            3 => self.system_of_shared_beginnings(generators, records),
            _ => {
                let longest_half = [1, 2, 3, 8, 31][self.below(5)];
                self.system_of_shared_halves(generators, records, longest_half)
            }
        }
    }

    /// Any move over at least two slots.
    pub fn any_move(&mut self, slots: usize) -> Move {
        let changed = self.below(slots);
        let other = (changed + self.between(1, slots - 1)) % slots;
        let form = Form::ALL[self.below(Form::ALL.len())];
        Move {
            changed,
            form,
            other,
        }
    }
}
