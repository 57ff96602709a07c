//! The elements of a system: its words that are not empty and their inverses, each with the slot
//! that it stands in.

use crate::words::Word;

/// A word of the system or its inverse.
pub struct Element {
    pub slot: usize,
    pub inverted: bool,
    pub word: Word,
}

impl Element {
    /// Whether the other element is this one's own inverse.
    pub fn is_own_inverse(&self, other: &Element) -> bool {
        self.slot == other.slot && self.inverted != other.inverted
    }

    /// The letter of the slot, or its capital for an inverse.
    pub fn letter(&self) -> u8 {
        let first = if self.inverted { b'A' } else { b'a' };
        first + self.slot as u8
    }
}

/// The elements of a system, by slot and the word before its inverse.
pub fn elements(words: &[Word]) -> Vec<Element> {
    let mut elements = Vec::with_capacity(2 * words.len());
    for (slot, word) in words.iter().enumerate() {
        if !word.is_empty() {
            for (inverted, word) in [(false, *word), (true, word.inverse())] {
                elements.push(Element {
                    slot,
                    inverted,
                    word,
                });
            }
        }
    }
    elements
}
