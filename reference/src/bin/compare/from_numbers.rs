//! The comparison of from numbers, on all systems of numbers. What is written is taken there again, and
//! tidied in both forms.

use crate::both_forms::{check_back, check_refused_back};
use crate::entries::FROM_NUMBERS;
use crate::numbers::{compare_on_all_systems, OfNumbers};
use subgroups_reference::answers::DONE;
use subgroups_reference::refusals::{NUMBER_WITHOUT_LETTER, WORDS_BUFFER_SHORT};

/// Compares from numbers on all its inputs and gives the number of calls.
pub fn compare() -> u64 {
    let (inputs, buffers) = (["system of numbers"], ["words buffer"]);
    let calls = &mut OfNumbers::of_numbers("from numbers", FROM_NUMBERS, inputs, buffers);
    calls.another_check = Some(check_back);
    calls.refusal_check = Some(check_refused_back);
    compare_on_all_systems(calls, |length| length / 2);
    let done = calls.seen.not_refused();
    println!("from numbers: {done} calls that are not refused lead back and there, tidied too");
    calls.end(&[DONE], &[NUMBER_WITHOUT_LETTER, WORDS_BUFFER_SHORT])
}
