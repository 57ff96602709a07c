//! Random texts with powers, groups and brackets, nested to any depth, texts spoiled in one byte, and
//! words of runs. Most exponents are small, so that most values fit a record; a few are out of range.

use crate::random::Random;
use crate::words::LONGEST;

/// The signs of which texts are made, and some that are none; a few letters and digits stand for all.
pub const TEXT_SIGNS: &[u8] = b"aAbB()[],^-01367+. *\n\0";

impl Random {
    /// A well-formed text over the first generators that is nested just this deep.
    pub fn text(&mut self, generators: usize, depth: usize) -> Vec<u8> {
        let mut text = self.text_of_letters(generators);
        if depth > 0 {
            let inside = self.text(generators, depth - 1);
            let beside = match self.below(8) {
                0 => self.below(depth),
                _ => 0,
            };
            let beside = self.text(generators, beside);
            let (inside, beside) = (&inside[..], &beside[..]);
            text.extend(match self.below(4) {
                0 => [b"[", inside, b",", beside, b"]"].concat(),
                1 => [b"[", beside, b",", inside, b"]"].concat(),
                _ => [b"(", inside, b")"].concat(),
            });
            text.extend(self.text_of_power());
            text.extend(self.text_of_letters(generators));
        }
        text
    }

    /// A few letters, some of them with a power.
    fn text_of_letters(&mut self, generators: usize) -> Vec<u8> {
        let mut text = Vec::new();
        for _ in 0..[0, 0, 1, 1, 2, 3][self.below(6)] {
            text.push(self.letter(generators));
            text.extend(self.text_of_power());
        }
        text
    }

    /// Nothing or a power, seldom one whose exponent is great or out of range.
    fn text_of_power(&mut self) -> Vec<u8> {
        let size = match self.below(40) {
            0 => self.below(100),
            1 | 2 => self.below(10),
            3..=15 => self.below(3),
            _ => return Vec::new(),
        };
        let sign = ["", "-"][self.below(2)];
        let power = match self.below(4) {
            0 => format!("^{sign}{size:02}"),
            _ => format!("^{sign}{size}"),
        };
        power.into_bytes()
    }

    /// Letters in runs of equal ones, most of them short.
    pub fn letters_in_runs(&mut self, generators: usize, length: usize) -> Vec<u8> {
        let mut letters = Vec::with_capacity(length + LONGEST);
        while letters.len() < length {
            let longest = [1, 2, 3, 12, LONGEST][self.below(5)];
            let letter = self.letter(generators);
            letters.resize(letters.len() + self.between(1, longest), letter);
        }
        letters.truncate(length);
        letters
    }

    /// The text with one byte changed, taken out or put in between, mostly by a sign of texts.
    pub fn spoiled_text(&mut self, text: &[u8]) -> Vec<u8> {
        let mut spoiled = text.to_vec();
        let sign = match self.below(8) {
            0 => self.byte(),
            _ => TEXT_SIGNS[self.below(TEXT_SIGNS.len())],
        };
        let place = self.below(text.len() + 1);
        match self.below(3) {
            0 if place < text.len() => spoiled[place] = sign,
            1 if place < text.len() => {
                spoiled.remove(place);
            }
            _ => spoiled.insert(place, sign),
        }
        spoiled
    }
}

#[cfg(test)]
mod tests {
    use super::*;
    use crate::read_text::{read_text, DEEPEST, LONGEST_TEXT};
    use crate::records::RECORD;
    use crate::refusals::{EXPONENT_OUT_OF_RANGE, NESTING_TOO_DEEP, TEXT_MALFORMED, WORD_TOO_LONG};

    /// Texts are well formed and nested as deep as they are said to be, and many are read.
    #[test]
    fn texts_of_every_depth() {
        let mut random = Random::new(41);
        for depth in 0..=DEEPEST + 2 {
            let mut read = 0;
            for round in 0..2000 {
                let text = random.text([1, 2, 3, 26][round % 4], depth);
                match read_text(&text, &mut [0; RECORD]).number {
                    TEXT_MALFORMED => assert!(text.len() > LONGEST_TEXT),
                    NESTING_TOO_DEEP => assert!(depth > DEEPEST),
                    EXPONENT_OUT_OF_RANGE | WORD_TOO_LONG => assert!(depth <= DEEPEST),
                    _ => read += 1,
                }
            }
            assert_eq!(read > 500, depth <= DEEPEST, "{depth}: {read}");
        }
    }

    /// A spoiled text differs from the text in its length or in one byte at most.
    #[test]
    fn spoiled_texts() {
        let mut random = Random::new(44);
        for _ in 0..1000 {
            let text = random.text(2, 2);
            let spoiled = random.spoiled_text(&text);
            let pairs = text.iter().zip(&spoiled);
            let changed = pairs.filter(|(one, other)| one != other).count();
            let difference = text.len().abs_diff(spoiled.len());
            assert!(difference == 1 || difference == 0 && changed <= 1);
        }
    }
}
