//! The reader and the writer of texts in one pass, without trees and without rows of their own, for
//! timing alone. The plain ones are read_text.rs and write_text.rs, and the tests below check that
//! these do the same.

use crate::answers::Answer;
use crate::read_text::{DEEPEST, GREATEST_EXPONENT, LONGEST_TEXT};
use crate::records::{check_room_for_words, read_target_or_product, write_record};
use crate::refusals::*;
use crate::words::{cancellation, free_reduction, inverse_letter, LONGEST};
use crate::write_text::check_room_for_text;

/// A freely reduced word that is changed in its place.
struct Value {
    letters: [u8; LONGEST],
    length: usize,
}

impl Value {
    /// The empty word.
    const EMPTY: Value = Value {
        letters: [0; LONGEST],
        length: 0,
    };

    /// The word of one letter.
    #[inline]
    fn of_letter(letter: u8) -> Value {
        let mut value = Value::EMPTY;
        value.letters[0] = letter;
        value.length = 1;
        value
    }

    /// The letters of the word.
    #[inline]
    fn letters(&self) -> &[u8] {
        &self.letters[..self.length]
    }

    /// Puts a freely reduced word behind this one, if the result has at most 63 letters.
    #[inline]
    fn append(&mut self, letters: &[u8]) -> bool {
        let cancelled = cancellation(self.letters(), letters);
        let kept = self.length - cancelled;
        let rest = &letters[cancelled..];
        let Some(room) = self.letters.get_mut(kept..kept + rest.len()) else {
            return false;
        };
        room.copy_from_slice(rest);
        self.length = kept + rest.len();
        true
    }

    /// Turns the word into its inverse.
    #[inline]
    fn invert(&mut self) {
        let letters = &mut self.letters[..self.length];
        letters.reverse();
        for letter in letters {
            *letter = inverse_letter(*letter);
        }
    }

    /// Raises the word to a power, if the result has at most 63 letters. What cancels between the word
    /// and itself is less than half of it, and stays once at either end.
    #[inline]
    fn raise(&mut self, times: usize) -> bool {
        if times == 0 || self.length == 0 {
            self.length = 0;
            return true;
        }
        let ends = cancellation(self.letters(), self.letters());
        let middle = self.length - 2 * ends;
        let length = 2 * ends + times * middle;
        if length > LONGEST {
            return false;
        }
        let end = self.length - ends..self.length;
        self.letters.copy_within(end, length - ends);
        for turn in 1..times {
            let copy = ends + turn * middle;
            self.letters.copy_within(ends..ends + middle, copy);
        }
        self.length = length;
        true
    }

    /// The commutator of two words, if it has at most 63 letters.
    fn commutator(mut u: Value, mut v: Value) -> Option<Value> {
        let half = u.length + v.length;
        let mut row = [0; 4 * LONGEST];
        row[half..half + u.length].copy_from_slice(u.letters());
        row[half + u.length..2 * half].copy_from_slice(v.letters());
        u.invert();
        v.invert();
        row[..u.length].copy_from_slice(u.letters());
        row[u.length..half].copy_from_slice(v.letters());
        let mut reduced = [0; 4 * LONGEST];
        let length = free_reduction(&row[..2 * half], &mut reduced);
        if length > LONGEST {
            return None;
        }
        u.letters[..length].copy_from_slice(&reduced[..length]);
        u.length = length;
        Some(u)
    }
}

/// One pass over a text, with what it has found before the next place.
struct Pass<'a> {
    text: &'a [u8],
    place: usize,
    /// How many groups and brackets are open.
    depth: usize,
    too_deep: Option<usize>,
    out_of_range: Option<usize>,
    too_long: bool,
}

impl Pass<'_> {
    /// Passes over the next sign if it is this one.
    #[inline]
    fn skip(&mut self, sign: u8) -> bool {
        let found = self.text.get(self.place) == Some(&sign);
        self.place += usize::from(found);
        found
    }

    /// Passes over the sign that must stand here, or gives the place where it does not.
    #[inline]
    fn skip_only(&mut self, sign: u8) -> Result<(), usize> {
        if self.skip(sign) {
            Ok(())
        } else {
            Err(self.place)
        }
    }

    /// Passes over a product and gives its value, or the place where the text is malformed.
    fn product(&mut self) -> Result<Value, usize> {
        let mut product = Value::EMPTY;
        while let Some(&sign) = self.text.get(self.place) {
            let mut factor = match sign {
                b'(' => self.group()?,
                b'[' => self.bracket()?,
                b'a'..=b'z' | b'A'..=b'Z' => {
                    self.place += 1;
                    Value::of_letter(sign)
                }
                _ => break,
            };
            self.power(&mut factor)?;
            let fits = product.append(factor.letters());
            self.too_long |= !fits;
        }
        Ok(product)
    }

    /// Passes over an opening sign.
    #[inline]
    fn open(&mut self) {
        self.depth += 1;
        if self.depth > DEEPEST {
            self.too_deep.get_or_insert(self.place);
        }
        self.place += 1;
    }

    /// Passes over a group and gives its value.
    fn group(&mut self) -> Result<Value, usize> {
        self.open();
        let value = self.product()?;
        self.skip_only(b')')?;
        self.depth -= 1;
        Ok(value)
    }

    /// Passes over a bracket and gives its value.
    fn bracket(&mut self) -> Result<Value, usize> {
        self.open();
        let u = self.product()?;
        self.skip_only(b',')?;
        let v = self.product()?;
        self.skip_only(b']')?;
        self.depth -= 1;
        let value = Value::commutator(u, v);
        self.too_long |= value.is_none();
        Ok(value.unwrap_or(Value::EMPTY))
    }

    /// Passes over a power, if there is one, and raises the factor to it.
    #[inline]
    fn power(&mut self, factor: &mut Value) -> Result<(), usize> {
        let caret = self.place;
        if !self.skip(b'^') {
            return Ok(());
        }
        if self.skip(b'-') {
            factor.invert();
        }
        let mut times = self.digit().ok_or(self.place)?;
        if let Some(second) = self.digit() {
            times = 10 * times + second;
        }
        if times > GREATEST_EXPONENT as usize {
            self.out_of_range.get_or_insert(caret);
        }
        let fits = factor.raise(times);
        self.too_long |= !fits;
        Ok(())
    }

    /// Passes over a digit, if the next sign is one.
    #[inline]
    fn digit(&mut self) -> Option<usize> {
        let sign = self.text.get(self.place)?;
        sign.is_ascii_digit().then(|| {
            self.place += 1;
            usize::from(sign - b'0')
        })
    }
}

/// Does what read_text does, in one pass.
pub fn read_text([text]: [&[u8]; 1], [word]: [&mut [u8]; 1]) -> Answer {
    read_text_or_refuse(text, word).unwrap_or_else(Answer::refused)
}

/// Does what read_text promises, or gives the refusal.
fn read_text_or_refuse(text: &[u8], word: &mut [u8]) -> Result<Answer, Refusal> {
    if text.len() > LONGEST_TEXT {
        return Err(Refusal::new(TEXT_MALFORMED, 0));
    }
    let mut pass = Pass {
        text,
        place: 0,
        depth: 0,
        too_deep: None,
        out_of_range: None,
        too_long: false,
    };
    let malformed = |place| Refusal::new(TEXT_MALFORMED, place);
    let value = pass.product().map_err(malformed)?;
    if pass.place < text.len() {
        return Err(malformed(pass.place));
    }
    if let Some(opening) = pass.too_deep {
        return Err(Refusal::new(NESTING_TOO_DEEP, opening));
    }
    if let Some(caret) = pass.out_of_range {
        return Err(Refusal::new(EXPONENT_OUT_OF_RANGE, caret));
    }
    check_room_for_words(word, 1)?;
    if pass.too_long {
        return Err(Refusal::new(WORD_TOO_LONG, 0));
    }
    write_record(value.letters(), word);
    Ok(Answer::done())
}

/// Does what write_text does, sign by sign.
pub fn write_text(word: &[u8], text: &mut [u8]) -> (Answer, u64) {
    match write_text_or_refuse(word, text) {
        Ok(length) => (Answer::done(), length as u64),
        Err(refusal) => (Answer::refused(refusal), 0),
    }
}

/// Does what write_text promises, or gives the refusal.
fn write_text_or_refuse(word: &[u8], text: &mut [u8]) -> Result<usize, Refusal> {
    let mut letters = read_target_or_product(word)?;
    check_room_for_text(text)?;
    let mut length = 0;
    let mut put = |sign| {
        text[length] = sign;
        length += 1;
    };
    while let Some(&letter) = letters.first() {
        let equal = letters.iter().take_while(|&&other| other == letter);
        let count = equal.count();
        letters = &letters[count..];
        if count == 1 {
            put(letter);
            continue;
        }
        put(letter.to_ascii_lowercase());
        put(b'^');
        if letter.is_ascii_uppercase() {
            put(b'-');
        }
        if count > 9 {
            put(b'0' + (count / 10) as u8);
        }
        put(b'0' + (count % 10) as u8);
    }
    Ok(length)
}

#[cfg(test)]
mod tests {
    use super::*;
    use crate::random::{Kind, Random};
    use crate::records::{record, RECORD};
    use crate::text_sheets::{READ, REFUSED, WRITTEN};
    use crate::{read_text as plain_reader, write_text as plain_writer};

    const FILL: u8 = 0xEE;

    /// Checks that both readers give the same answer and leave the same bytes, and gives the number.
    fn compare_readers(text: &[u8], room: usize) -> u64 {
        let (mut plain, mut quick) = (vec![FILL; room], vec![FILL; room]);
        let expected = plain_reader(text, &mut plain);
        let answer = read_text([text], [&mut quick]);
        let shown = text.escape_ascii();
        assert_eq!((answer, quick), (expected, plain), "{shown}");
        answer.number
    }

    /// Checks that both writers give the same and leave the same bytes.
    fn compare_writers(word: &[u8], room: usize) {
        let (mut plain, mut quick) = (vec![FILL; room], vec![FILL; room]);
        let expected = plain_writer(word, &mut plain);
        assert_eq!(write_text(word, &mut quick), expected);
        assert_eq!(quick, plain);
    }

    /// On the sheets and on random texts, sound and spoiled, the quick reader does what the plain one
    /// does.
    #[test]
    fn reads_as_the_plain_reader() {
        let texts = READ.iter().map(|(text, _)| *text);
        for text in texts.chain(REFUSED.iter().map(|(text, _)| *text)) {
            compare_readers(text.as_bytes(), RECORD);
            compare_readers(text.as_bytes(), RECORD - 1);
        }
        let mut random = Random::new(45);
        let mut counts = [0; 19];
        for round in 0..30_000 {
            let generators = [1, 2, 3, 26][random.below(4)];
            let mut text = random.text(generators, round % 11);
            for _ in 0..3 {
                let room = RECORD + 1 - random.below(3);
                counts[compare_readers(&text, room) as usize] += 1;
                text = random.spoiled_text(&text);
            }
        }
        for number in [
            0,
            WORDS_BUFFER_SHORT,
            WORD_TOO_LONG,
            TEXT_MALFORMED,
            NESTING_TOO_DEEP,
            EXPONENT_OUT_OF_RANGE,
        ] {
            assert!(counts[number as usize] > 1000, "{counts:?}");
        }
    }

    /// On random words of all kinds the quick writer does what the plain one does.
    #[test]
    fn writes_as_the_plain_writer() {
        let mut random = Random::new(46);
        for (letters, _) in WRITTEN {
            compare_writers(&record(letters), LONGEST_TEXT);
        }
        for round in 0..10_000 {
            let length = random.below(LONGEST + 1);
            let letters = match round % 4 {
                0 => random.letters_in_runs(2, length),
                kind => random.letters(Kind::ALL[kind - 1], 1 + round % 5, length),
            };
            let mut word = record(letters);
            compare_writers(&word, LONGEST_TEXT + 1 - random.below(3));
            word[random.below(RECORD)] = random.byte();
            compare_writers(&word, LONGEST_TEXT + 1 - random.below(3));
        }
    }
}
