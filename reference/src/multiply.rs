//! The call multiply: put each slot letter's word and each capital's inverse word in its place.
//! The row may grow to 63 times 63 letters on the way; only the final word must fit a record.

use crate::answers::Answer;
use crate::records::{
    check_room_for_words, read_system, read_target_or_product, slot_named, write_record,
};
use crate::refusals::{Refusal, SLOT_MISSING, WORD_TOO_LONG};
use crate::words::{free_reduction, LONGEST};

/// Writes the freely reduced word that the product over the system multiplies out to.
pub fn multiply(system: &[u8], product: &[u8], word: &mut [u8]) -> Answer {
    multiply_or_refuse(system, product, word).unwrap_or_else(Answer::refused)
}

/// Does what multiply promises, or gives the refusal.
fn multiply_or_refuse(system: &[u8], product: &[u8], word: &mut [u8]) -> Result<Answer, Refusal> {
    let system = read_system(system)?;
    let mut row = Vec::new();
    for (place, letter) in read_target_or_product(product)?.iter().enumerate() {
        let slot = slot_named(letter.to_ascii_lowercase(), system.count());
        let slot = slot.ok_or(Refusal::new(SLOT_MISSING, place))?;
        let factor = system.words()[slot];
        if letter.is_ascii_lowercase() {
            row.extend_from_slice(factor.letters());
        } else {
            row.extend_from_slice(factor.inverse().letters());
        }
    }
    check_room_for_words(word, 1)?;
    let mut reduced = vec![0; row.len()];
    let length = free_reduction(&row, &mut reduced);
    if length > LONGEST {
        return Err(Refusal::new(WORD_TOO_LONG, 0));
    }
    write_record(&reduced[..length], word);
    Ok(Answer::done())
}
