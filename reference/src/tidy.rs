//! The call tidy: freely reduce every record of a system.
//! Each word is written into the 64 bytes of its own slot.

use crate::answers::Answer;
use crate::records::{check_room_for_words, read_system};
use crate::refusals::Refusal;

/// Writes the freely reduced words of the system into the buffer for words.
pub fn tidy(system: &[u8], words: &mut [u8]) -> Answer {
    tidy_or_refuse(system, words).unwrap_or_else(Answer::refused)
}

/// Does what tidy promises, or gives the refusal.
fn tidy_or_refuse(system: &[u8], words: &mut [u8]) -> Result<Answer, Refusal> {
    let system = read_system(system)?;
    check_room_for_words(words, system.count())?;
    system.write(words);
    Ok(Answer::done())
}
