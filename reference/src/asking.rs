//! The call ask: is a target a member, for a system that is reduced after free reduction?
//! The system is judged by the definition, as in test; nothing but a member's product is written.

use crate::answers::Answer;
use crate::factoring::verdict;
use crate::records::{check_room_for_product, read_system, read_target_or_product};
use crate::reducedness::is_reduced;
use crate::refusals::{Refusal, SYSTEM_NOT_REDUCED};
use crate::words::Word;

/// Decides whether the target is a member, with its product over the freely reduced words.
pub fn ask(system: &[u8], target: &[u8], product: &mut [u8]) -> Answer {
    ask_by(is_reduced, [system, target], [product])
}

/// Does what ask does with its two inputs and one buffer, by another decision on freely reduced words.
pub fn ask_by(
    is_reduced: impl Fn(&[Word]) -> bool,
    inputs: [&[u8]; 2],
    buffers: [&mut [u8]; 1],
) -> Answer {
    ask_or_refuse(is_reduced, inputs, buffers).unwrap_or_else(Answer::refused)
}

/// Does what ask promises, or gives the refusal.
fn ask_or_refuse(
    is_reduced: impl Fn(&[Word]) -> bool,
    [system, target]: [&[u8]; 2],
    [product]: [&mut [u8]; 1],
) -> Result<Answer, Refusal> {
    let system = read_system(system)?;
    let target = Word::freely_reduced(read_target_or_product(target)?);
    if !is_reduced(system.words()) {
        return Err(Refusal::new(SYSTEM_NOT_REDUCED, 0));
    }
    check_room_for_product(product)?;
    Ok(Answer {
        verdict: verdict(system.words(), &target, product),
        ..Answer::done()
    })
}
