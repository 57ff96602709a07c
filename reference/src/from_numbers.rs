//! The call from_numbers: each record of signed generator numbers becomes the word of a system again.
//! A number beyond 26 has no letter.

use crate::answers::Answer;
use crate::numbers::{length_of_row, read_row, records_of_numbers, refusal_at_number, Row};
use crate::records::{check_room_for_words, write_record, RECORD};
use crate::refusals::{Refusal, NUMBER_WITHOUT_LETTER};
use crate::words::LONGEST;

/// The number of the last letter, z.
pub const LAST_LETTER: i16 = 26;

/// Writes the letters of each record of numbers into the 64 bytes of its own slot.
pub fn from_numbers(numbers: &[u8], words: &mut [u8]) -> Answer {
    from_numbers_or_refuse(numbers, words).unwrap_or_else(Answer::refused)
}

/// Does what from_numbers promises, or gives the refusal.
fn from_numbers_or_refuse(numbers: &[u8], words: &mut [u8]) -> Result<Answer, Refusal> {
    let records = records_of_numbers(numbers)?;
    let mut rows = Vec::with_capacity(records.len());
    for (slot, record) in records.iter().enumerate() {
        let row = read_row(slot, record)?;
        check_letters(slot, &row)?;
        rows.push(row);
    }
    check_room_for_words(words, rows.len())?;
    for (row, record) in rows.iter().zip(words.chunks_exact_mut(RECORD)) {
        let numbers = &row[..length_of_row(row)];
        let mut letters = [0; LONGEST];
        for (letter, &number) in letters.iter_mut().zip(numbers) {
            *letter = letter_of_number(number);
        }
        write_record(&letters[..numbers.len()], record);
    }
    Ok(Answer::done())
}

/// Checks that no number of the record in a slot is above 26 or below -26, by rule 20.
fn check_letters(slot: usize, row: &Row) -> Result<(), Refusal> {
    let has_letter = -LAST_LETTER..=LAST_LETTER;
    match row.iter().position(|number| !has_letter.contains(number)) {
        Some(index) => Err(refusal_at_number(NUMBER_WITHOUT_LETTER, slot, index)),
        None => Ok(()),
    }
}

/// The letter of a number from 1 to 26, and the capital of one from -1 to -26.
fn letter_of_number(number: i16) -> u8 {
    if number > 0 {
        b'a' + (number - 1) as u8
    } else {
        b'A' + (-number - 1) as u8
    }
}
