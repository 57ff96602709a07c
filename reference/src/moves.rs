//! Moves and their four forms. A move changes the word in one slot by the word in another one.

use crate::words::Word;

/// What takes the place of w(k): the form of a move that changes slot k by slot i.
#[derive(Clone, Copy, Debug, PartialEq, Eq)]
pub enum Form {
    /// Form 1: w(i) w(k).
    WordBefore,
    /// Form 2: inverse of w(i), then w(k).
    InverseBefore,
    /// Form 3: w(k) w(i).
    WordAfter,
    /// Form 4: w(k), then inverse of w(i).
    InverseAfter,
}

/// One move: the slot changed, the form and the other slot.
#[derive(Clone, Copy, Debug, PartialEq, Eq)]
pub struct Move {
    pub changed: usize,
    pub form: Form,
    pub other: usize,
}

impl Form {
    /// The four forms in the order of their digits.
    pub const ALL: [Form; 4] = [
        Form::WordBefore,
        Form::InverseBefore,
        Form::WordAfter,
        Form::InverseAfter,
    ];

    /// The digit of the form in a log.
    pub fn digit(self) -> u8 {
        b'1' + self as u8
    }

    /// The form with this digit, if there is one.
    pub fn with_digit(digit: u8) -> Option<Form> {
        Form::ALL.into_iter().find(|form| form.digit() == digit)
    }

    /// The form that undoes this one.
    pub fn undoing(self) -> Form {
        match self {
            Form::WordBefore => Form::InverseBefore,
            Form::InverseBefore => Form::WordBefore,
            Form::WordAfter => Form::InverseAfter,
            Form::InverseAfter => Form::WordAfter,
        }
    }

    /// What takes the place of w(k), the changed word, by w(i), the other, if it has at most 63 letters.
    #[inline]
    pub fn product(self, changed: &Word, other: &Word) -> Option<Word> {
        match self {
            Form::WordBefore => other.times(changed),
            Form::InverseBefore => other.inverse().times(changed),
            Form::WordAfter => changed.times(other),
            Form::InverseAfter => changed.times(&other.inverse()),
        }
    }
}

impl Move {
    /// Makes the move; false, and no change, if the result is over 63 letters.
    #[inline]
    pub fn make(self, words: &mut [Word]) -> bool {
        match self.form.product(&words[self.changed], &words[self.other]) {
            Some(product) => words[self.changed] = product,
            None => return false,
        }
        true
    }

    /// The move that undoes this one.
    pub fn undoing(self) -> Move {
        Move {
            form: self.form.undoing(),
            ..self
        }
    }
}
