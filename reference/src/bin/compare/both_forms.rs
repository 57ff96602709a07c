//! Systems of words and of numbers against each other, all by the entries of the proved library: there and
//! back, back and there, tidied in both forms, and refused in both.

use crate::entries::{Entry, FROM_NUMBERS, TIDY, TIDY_NUMBERS, TO_NUMBERS};
use crate::in_turn::gives;
use crate::lent::{Lent, LentAnswer};
use subgroups_reference::numbers::NUMBERS_RECORD;
use subgroups_reference::refusals::*;
use subgroups_reference::Answer;

/// Checks what to numbers, not refused, has made of a system.
pub fn check_there(
    [system]: [&[u8]; 1],
    [numbers]: [&[u8]; 1],
    _: Answer,
) -> Result<(), &'static str> {
    check_both_forms(system, &numbers[..2 * system.len()])
}

/// Checks what from numbers, not refused, has made of a system of numbers.
pub fn check_back(
    [numbers]: [&[u8]; 1],
    [words]: [&[u8]; 1],
    _: Answer,
) -> Result<(), &'static str> {
    check_both_forms(&words[..numbers.len() / 2], numbers)
}

/// Checks that what tidy numbers, not refused, has made of a system stays as it is when it is tidied again.
pub fn check_tidied(
    [numbers]: [&[u8]; 1],
    [tidied]: [&[u8]; 1],
    _: Answer,
) -> Result<(), &'static str> {
    let tidied = &tidied[..numbers.len()];
    if gives(TIDY_NUMBERS, [tidied], [tidied], Answer::done()) {
        Ok(())
    } else {
        Err("what is tidied changes when it is tidied again")
    }
}

/// Checks that the same words in both forms come from each other, before and after they are tidied.
fn check_both_forms(words: &[u8], numbers: &[u8]) -> Result<(), &'static str> {
    if !come_from_each_other(words, numbers) {
        return Err("to numbers and from numbers do not lead there and back");
    }
    let tidied_words = made_by(TIDY, words, words.len());
    let tidied_numbers = made_by(TIDY_NUMBERS, numbers, numbers.len());
    let (Some(words), Some(numbers)) = (tidied_words, tidied_numbers) else {
        return Err("the words are not tidied in both forms");
    };
    if !come_from_each_other(&words, &numbers) {
        return Err("tidy and tidy numbers make other words of the same");
    }
    Ok(())
}

/// Whether to numbers and from numbers make just these words and just these numbers of each other.
fn come_from_each_other(words: &[u8], numbers: &[u8]) -> bool {
    gives(TO_NUMBERS, [words], [numbers], Answer::done())
        && gives(FROM_NUMBERS, [numbers], [words], Answer::done())
}

/// What an entry of the proved library leaves in a buffer of this length, if it is done and changes nothing
/// else.
fn made_by(entry: Entry<1, 1>, input: &[u8], length: usize) -> Option<Vec<u8>> {
    let lent = Lent::copied(input);
    let mut buffer = Lent::filled(length);
    let mut given = LentAnswer::new();
    (entry.proved)([lent.part()], [buffer.part_mut()], &mut given.numbers);
    let left = buffer.part().to_vec();
    let nothing_else = lent.holds_just(input) && buffer.holds_just(&left);
    (nothing_else && given.holds_just(Answer::done())).then_some(left)
}

/// Checks that a refusal of to numbers is that of tidy, where the words buffer was not what was refused.
pub fn check_refused_there(
    [system]: [&[u8]; 1],
    _: [&[u8]; 1],
    answer: Answer,
) -> Result<(), &'static str> {
    if answer.number == WORDS_BUFFER_SHORT || gives(TIDY, [system], [&[]], answer) {
        Ok(())
    } else {
        Err("tidy gives another refusal than to numbers")
    }
}

/// Checks a refusal of from numbers: tidy numbers gives the same, or where numbers have no letter or the
/// buffer is short it tidies all records up to that one, and from numbers goes back with those before it.
pub fn check_refused_back(
    [numbers]: [&[u8]; 1],
    _: [&[u8]; 1],
    answer: Answer,
) -> Result<(), &'static str> {
    let agrees = match answer.number {
        NUMBER_WITHOUT_LETTER => {
            let (before, with) = numbers_up_to(numbers, answer.place);
            made_by(FROM_NUMBERS, before, before.len() / 2).is_some() && is_tidied(with)
        }
        WORDS_BUFFER_SHORT => is_tidied(numbers),
        _ => gives(TIDY_NUMBERS, [numbers], [&[]], answer),
    };
    if agrees {
        Ok(())
    } else {
        Err("the refusal of from numbers does not go with what tidy numbers gives")
    }
}

/// Checks a refusal of tidy numbers: from numbers gives the same for the length, and for a record that
/// breaks the layout where it stands alone, and tidy numbers does not refuse the records before it.
pub fn check_refused_tidied(
    [numbers]: [&[u8]; 1],
    _: [&[u8]; 1],
    answer: Answer,
) -> Result<(), &'static str> {
    let agrees = match answer.number {
        NUMBERS_MALFORMED => {
            let (before, with) = numbers_up_to(numbers, answer.place);
            let place = answer.place - before.len() as u64;
            let alone = Answer { place, ..answer };
            is_tidied(before) && gives(FROM_NUMBERS, [&with[before.len()..]], [&[]], alone)
        }
        WORDS_BUFFER_SHORT => is_tidied(numbers),
        _ => gives(FROM_NUMBERS, [numbers], [&[]], answer),
    };
    if agrees {
        Ok(())
    } else {
        Err("the refusal of tidy numbers does not go with what from numbers gives")
    }
}

/// Whether tidy numbers, with just enough room, tidies this system.
fn is_tidied(numbers: &[u8]) -> bool {
    made_by(TIDY_NUMBERS, numbers, numbers.len()).is_some()
}

/// The records before the one in which a place is, and these together with that one.
fn numbers_up_to(numbers: &[u8], place: u64) -> (&[u8], &[u8]) {
    let before = NUMBERS_RECORD * (place as usize / NUMBERS_RECORD);
    (&numbers[..before], &numbers[..before + NUMBERS_RECORD])
}
