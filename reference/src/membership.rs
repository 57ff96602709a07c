//! The call member: all that reduce does, then the decision on a target over the reduced words.
//! Where it is not refused it gives what reduce and ask give in turn.

use crate::answers::Answer;
use crate::factoring::verdict;
use crate::logs::Rule;
use crate::moves::Move;
use crate::records::{
    check_room_for_product, check_room_for_words, read_system, read_target_or_product,
};
use crate::reduction::{next_move, reduce_system};
use crate::refusals::Refusal;
use crate::words::Word;

/// Does all that reduce does, and decides whether the target is a member, with its product.
pub fn member(
    system: &[u8],
    target: &[u8],
    words: &mut [u8],
    log: &mut [u8],
    product: &mut [u8],
) -> Answer {
    member_by(next_move, [system, target], [words, log, product])
}

/// Does what member does with its two inputs and three buffers, by the moves that a search finds.
pub fn member_by(
    next_move: impl FnMut(&[Word]) -> Option<(Rule, Move)>,
    inputs: [&[u8]; 2],
    buffers: [&mut [u8]; 3],
) -> Answer {
    member_or_refuse(next_move, inputs, buffers).unwrap_or_else(Answer::refused)
}

/// Does what member promises, or gives the refusal.
fn member_or_refuse(
    next_move: impl FnMut(&[Word]) -> Option<(Rule, Move)>,
    [system, target]: [&[u8]; 2],
    [words, log, product]: [&mut [u8]; 3],
) -> Result<Answer, Refusal> {
    let mut system = read_system(system)?;
    let target = Word::freely_reduced(read_target_or_product(target)?);
    check_room_for_words(words, system.count())?;
    check_room_for_product(product)?;
    let answer = reduce_system(next_move, &mut system, log)?;
    system.write(words);
    Ok(Answer {
        verdict: verdict(system.words(), &target, product),
        ..answer
    })
}
