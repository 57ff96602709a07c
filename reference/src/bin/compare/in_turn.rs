//! Member against reduce and ask, all by the entries of the proved library. Where member is not refused:
//! reduce with the same buffers, then ask of the words that it wrote, and every number and every byte
//! must be the same. Where it is refused: reduce, and ask of the given system, as far as they must give
//! the same refusal. Neither must give 11: reduce does not test it, and ask tests 15 before it.

use crate::entries::{Entry, ASK, REDUCE};
use crate::lent::{Lent, LentAnswer};
use subgroups_reference::answers::{Answer, DONE};
use subgroups_reference::refusals::*;

/// The refusals of member that reduce gives with the same system, words buffer and log, in the
/// order in which they are tested.
pub const REFUSALS_OF_REDUCE: [u64; 7] = [
    SYSTEM_TOO_LONG,
    SYSTEM_UNEVEN,
    NO_LINE_FEED,
    NEITHER_LETTER_NOR_STOP,
    LETTER_AFTER_STOP,
    WORDS_BUFFER_SHORT,
    LOG_BUFFER_SHORT,
];

/// The refusals of member that ask gives with the same system, target and product buffer, in the
/// order in which they are tested.
pub const REFUSALS_OF_ASK: [u64; 6] = [
    SYSTEM_TOO_LONG,
    SYSTEM_UNEVEN,
    NO_LINE_FEED,
    NEITHER_LETTER_NOR_STOP,
    LETTER_AFTER_STOP,
    TARGET_OR_PRODUCT_MALFORMED,
];

/// Checks what a call of member that was not refused has left in its three buffers, and its answer,
/// against what reduce and ask in turn give.
pub fn check_in_turn(
    [system, target]: [&[u8]; 2],
    [words, log, product]: [&[u8]; 3],
    answer: Answer,
) -> Result<(), &'static str> {
    let done = Answer {
        verdict: DONE,
        ..answer
    };
    if !gives(REDUCE, [system], [words, log], done) {
        return Err("reduce gives another answer, other words or another log than member");
    }
    let reduced = &words[..system.len()];
    let verdict_alone = Answer {
        verdict: answer.verdict,
        ..Answer::default()
    };
    if !gives(ASK, [reduced, target], [product], verdict_alone) {
        return Err("ask of the reduced words gives another answer or product than member");
    }
    Ok(())
}

/// Checks what a call of member that was refused has left in its three buffers, and its refusal,
/// against reduce and ask of the given system, as far as they must give the same refusal.
pub fn check_refusal(
    [system, target]: [&[u8]; 2],
    [words, log, product]: [&[u8]; 3],
    answer: Answer,
) -> Result<(), &'static str> {
    let of_reduce = REFUSALS_OF_REDUCE.contains(&answer.number);
    if of_reduce && !gives(REDUCE, [system], [words, log], answer) {
        return Err("reduce gives another refusal, other words or another log than member");
    }
    let of_ask = REFUSALS_OF_ASK.contains(&answer.number);
    if of_ask && !gives(ASK, [system, target], [product], answer) {
        return Err("ask of the given system gives another refusal or product than member");
    }
    Ok(())
}

/// Whether an entry of the proved library, lent these inputs and buffers as long as these, gives this
/// answer, leaves these bytes in the buffers and changes nothing else.
pub fn gives<const INPUTS: usize, const BUFFERS: usize>(
    entry: Entry<INPUTS, BUFFERS>,
    inputs: [&[u8]; INPUTS],
    left: [&[u8]; BUFFERS],
    answer: Answer,
) -> bool {
    let lent = inputs.map(Lent::copied);
    let mut buffers = left.map(|bytes| Lent::filled(bytes.len()));
    let mut given = LentAnswer::new();
    (entry.proved)(
        lent.each_ref().map(Lent::part),
        buffers.each_mut().map(Lent::part_mut),
        &mut given.numbers,
    );
    let all_hold = |lent: &[Lent], bytes: &[&[u8]]| {
        let mut pairs = lent.iter().zip(bytes);
        pairs.all(|(lent, bytes)| lent.holds_just(bytes))
    };
    given.holds_just(answer) && all_hold(&lent, &inputs) && all_hold(&buffers, &left)
}
