//! The call write_text: a word becomes a text with powers, as people write it.
//! The word is written as it stands, without free reduction.

use crate::answers::Answer;
use crate::read_text::LONGEST_TEXT;
use crate::records::read_target_or_product;
use crate::refusals::{Refusal, WORDS_BUFFER_SHORT};

/// Writes the text of a word at the beginning of the text buffer and gives its length too, which is 0
/// under a refusal.
pub fn write_text(word: &[u8], text: &mut [u8]) -> (Answer, u64) {
    match write_text_or_refuse(word, text) {
        Ok(length) => (Answer::done(), length as u64),
        Err(refusal) => (Answer::refused(refusal), 0),
    }
}

/// Does what write_text promises, or gives the refusal.
fn write_text_or_refuse(word: &[u8], text: &mut [u8]) -> Result<usize, Refusal> {
    let letters = read_target_or_product(word)?;
    check_room_for_text(text)?;
    let runs = letters.chunk_by(|one, next| one == next);
    let written: String = runs.map(text_of_run).collect();
    text[..written.len()].copy_from_slice(written.as_bytes());
    Ok(written.len())
}

/// Checks that a text buffer has room for the longest text, by rule 10.
pub fn check_room_for_text(text: &[u8]) -> Result<(), Refusal> {
    if text.len() < LONGEST_TEXT {
        return Err(Refusal::new(WORDS_BUFFER_SHORT, 0));
    }
    Ok(())
}

/// A single letter as it stands, or the power that a run of equal letters is.
fn text_of_run(run: &[u8]) -> String {
    let letter = char::from(run[0]);
    let count = run.len();
    if count == 1 {
        letter.to_string()
    } else if letter.is_ascii_lowercase() {
        format!("{letter}^{count}")
    } else {
        format!("{}^-{count}", letter.to_ascii_lowercase())
    }
}
