//! The call tidy_numbers: freely reduce every record of a system of numbers.
//! Each word is written into the 128 bytes of its own slot.

use crate::answers::Answer;
use crate::numbers::*;
use crate::refusals::Refusal;

/// Writes the freely reduced words of the system of numbers into the buffer for them.
pub fn tidy_numbers(numbers: &[u8], tidied: &mut [u8]) -> Answer {
    tidy_numbers_or_refuse(numbers, tidied).unwrap_or_else(Answer::refused)
}

/// Does what tidy_numbers promises, or gives the refusal.
fn tidy_numbers_or_refuse(numbers: &[u8], tidied: &mut [u8]) -> Result<Answer, Refusal> {
    let records = records_of_numbers(numbers)?;
    let mut rows = Vec::with_capacity(records.len());
    for (slot, record) in records.iter().enumerate() {
        rows.push(read_row(slot, record)?);
    }
    check_room_for_numbers(tidied, rows.len())?;
    for (row, record) in rows.iter().zip(tidied.chunks_exact_mut(NUMBERS_RECORD)) {
        write_row(&freely_reduced(row), record);
    }
    Ok(Answer::done())
}

/// The free reduction of a row: a number beside its negative cancels, and zeros stand behind.
fn freely_reduced(row: &Row) -> Row {
    let mut reduced = [0; NUMBERS];
    let mut length = 0;
    for &number in &row[..length_of_row(row)] {
        if length > 0 && reduced[length - 1] == -number {
            length -= 1;
            reduced[length] = 0;
        } else {
            reduced[length] = number;
            length += 1;
        }
    }
    reduced
}
