//! The comparison of tidy numbers, on all systems of numbers. What is written is tidied again.

use crate::both_forms::{check_refused_tidied, check_tidied};
use crate::entries::TIDY_NUMBERS;
use crate::numbers::{compare_on_all_systems, OfNumbers};
use subgroups_reference::answers::DONE;
use subgroups_reference::refusals::WORDS_BUFFER_SHORT;

/// Compares tidy numbers on all its inputs and gives the number of calls.
pub fn compare() -> u64 {
    let (inputs, buffers) = (["system of numbers"], ["buffer for the tidied one"]);
    let calls = &mut OfNumbers::of_numbers("tidy numbers", TIDY_NUMBERS, inputs, buffers);
    calls.another_check = Some(check_tidied);
    calls.refusal_check = Some(check_refused_tidied);
    compare_on_all_systems(calls, |length| length);
    calls.end(&[DONE], &[WORDS_BUFFER_SHORT])
}
