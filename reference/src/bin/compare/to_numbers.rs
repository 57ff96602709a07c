//! The inputs on which to numbers is compared, which are those of tidy, and every letter at every place.
//! What is written is taken back, and tidied in both forms.

use crate::both_forms::{check_refused_there, check_there};
use crate::comparison::Comparison;
use crate::entries::TO_NUMBERS;
use crate::inputs::*;
use subgroups_reference::answers::DONE;
use subgroups_reference::number_sheets::NUMBERED;
use subgroups_reference::random::Random;
use subgroups_reference::records::{record, system};
use subgroups_reference::refusals::WORDS_BUFFER_SHORT;
use subgroups_reference::words::LONGEST;

/// The comparison of to numbers: the system; the numbers buffer.
type ToNumbers = Comparison<1, 1>;

/// Compares to numbers on all its inputs and gives the number of calls.
pub fn compare() -> u64 {
    let calls = &mut ToNumbers::new("to numbers", TO_NUMBERS, ["system"], ["numbers buffer"]);
    calls.another_check = Some(check_there);
    calls.refusal_check = Some(check_refused_there);
    let numbered = NUMBERED.iter().map(|(letters, _)| system(&[letters]));
    for system in sheet_systems().into_iter().chain(numbered) {
        calls.call_with_all_rooms([&system], [2 * system.len()]);
    }
    calls.walk_lengths(|calls, system| calls.call_with_all_rooms([system], [2 * system.len()]));
    for_each_number_of_records(|system| {
        calls.call_with_every_length([system], [2 * system.len()], 0);
    });
    for_each_malformed_system(|system| calls.call([system], [2 * system.len() + 5]));
    for_each_two_faults(|system| calls.call([system], [2 * system.len()]));
    for system in sound_and_refused_systems() {
        calls.call_with_all_rooms([&system], [2 * system.len()]);
    }
    every_byte_at_every_place(calls);
    random_systems(calls);
    let done = calls.seen.not_refused();
    println!("to numbers: {done} calls that are not refused lead there and back, tidied too");
    calls.end(&[DONE], &[WORDS_BUFFER_SHORT])
}

/// Every byte at every place of a short and of a full record between others.
fn every_byte_at_every_place(calls: &mut ToNumbers) {
    for letters in ["aAbBc", &"zA".repeat(32)[..LONGEST]] {
        let base = [record("mN"), record(letters), record("Zz")].concat();
        for_each_changed_byte(&base, 64..128, &every_byte(), |system| {
            calls.call([system], [2 * system.len()]);
        });
    }
}

/// Random systems over few and many generators, short and long, with little and much cancellation, sound
/// and damaged, with any room.
fn random_systems(calls: &mut ToNumbers) {
    let mut random = Random::new(1211);
    for generators in GENERATORS {
        for round in 0..6_000 {
            let mut system = random_system(&mut random, generators);
            let exact = 2 * system.len();
            calls.call([&system], [exact + random.below(80)]);
            if round % 16 == 0 {
                calls.call_with_all_rooms([&system], [exact]);
            }
            damage(&mut random, &mut system);
            let room = any_room(&mut random, exact);
            calls.call([&system], [room]);
        }
    }
}
