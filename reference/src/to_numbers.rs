//! The call to_numbers: each word of a system becomes a record of signed generator numbers.
//! A word is taken as it is given, without free reduction.

use crate::answers::Answer;
use crate::numbers::{check_room_for_numbers, write_row, NUMBERS, NUMBERS_RECORD};
use crate::records::read_system_as_given;
use crate::refusals::Refusal;

/// Writes the numbers of each word of the system into the 128 bytes of its own slot.
pub fn to_numbers(system: &[u8], numbers: &mut [u8]) -> Answer {
    to_numbers_or_refuse(system, numbers).unwrap_or_else(Answer::refused)
}

/// Does what to_numbers promises, or gives the refusal.
fn to_numbers_or_refuse(system: &[u8], numbers: &mut [u8]) -> Result<Answer, Refusal> {
    let words = read_system_as_given(system)?;
    check_room_for_numbers(numbers, words.len())?;
    for (letters, record) in words.iter().zip(numbers.chunks_exact_mut(NUMBERS_RECORD)) {
        let mut row = [0; NUMBERS];
        for (number, &letter) in row.iter_mut().zip(*letters) {
            *number = number_of_letter(letter);
        }
        write_row(&row, record);
    }
    Ok(Answer::done())
}

/// The number of a letter: 1 to 26 for a to z, and -1 to -26 for A to Z.
fn number_of_letter(letter: u8) -> i16 {
    if letter.is_ascii_lowercase() {
        1 + i16::from(letter - b'a')
    } else {
        -1 - i16::from(letter - b'A')
    }
}
