//! The inputs on which tidy is compared.
//! Every refusal that tidy can give is tried at every place.

use crate::comparison::Comparison;
use crate::entries::TIDY;
use crate::inputs::*;
use subgroups_reference::answers::DONE;
use subgroups_reference::random::Random;
use subgroups_reference::records::LONGEST_SYSTEM;
use subgroups_reference::refusals::WORDS_BUFFER_SHORT;
use subgroups_reference::sheets::{GivenTo, LengthSheet, LENGTH_SHEETS};

/// The comparison of tidy: the system; the words buffer.
type Tidy = Comparison<1, 1>;

/// Compares tidy on all its inputs and gives the number of calls.
pub fn compare() -> u64 {
    let calls = &mut Tidy::new("tidy", TIDY, ["system"], ["words buffer"]);
    for system in sheet_systems() {
        calls.call_with_all_rooms([&system], [system.len()]);
    }
    sheets_on_lengths(calls);
    calls.walk_lengths(|calls, system| calls.call_with_all_rooms([system], [system.len()]));
    for_each_number_of_records(|system| {
        calls.call_with_every_length([system], [system.len()], 0);
    });
    malformed_records(calls);
    for_each_two_faults(|system| calls.call([system], [system.len()]));
    for system in sound_and_refused_systems() {
        calls.call_with_all_rooms([&system], [system.len()]);
    }
    random_systems(calls);
    damaged_systems(calls);
    calls.end(&[DONE], &[WORDS_BUFFER_SHORT])
}

/// The worked sheets on lengths, with sound records and with any bytes.
fn sheets_on_lengths(calls: &mut Tidy) {
    let mut random = Random::new(204);
    let records = mixed_system().repeat(2);
    let for_tidy = |sheet: &&LengthSheet| sheet.given_to == GivenTo::Tidy;
    for &LengthSheet { length, .. } in LENGTH_SHEETS.iter().filter(for_tidy) {
        for system in [&records[..length], &any_bytes(&mut random, length)] {
            calls.call_with_all_rooms([system], [length]);
        }
    }
}

/// Every byte of a system changed: rules 3, 4 and 5 at each place of each record.
fn malformed_records(calls: &mut Tidy) {
    for_each_malformed_system(|system| calls.call([system], [system.len() + 5]));
    let whole = LONGEST_SYSTEM;
    let mixed = mixed_system();
    for_each_changed_byte(&mixed, 0..whole, &every_byte(), |system| {
        calls.call([system], [whole]);
    });
    for_each_changed_byte(&mixed, 0..whole, b"\0.\n~a", |system| {
        calls.call([system], [whole - 1]);
        calls.call([&system[..whole - 1]], [whole]);
    });
}

/// Random systems over few and many generators, short and long, with little and much cancellation.
fn random_systems(calls: &mut Tidy) {
    let mut random = Random::new(202);
    for generators in GENERATORS {
        for _ in 0..40_000 {
            let system = random_system(&mut random, generators);
            calls.call([&system], [system.len() + random.below(80)]);
        }
        for _ in 0..2_000 {
            let system = random_system(&mut random, generators);
            calls.call_with_all_rooms([&system], [system.len()]);
        }
    }
}

/// Random systems damaged in a few places, with any room for words.
fn damaged_systems(calls: &mut Tidy) {
    let mut random = Random::new(203);
    for generators in GENERATORS {
        for _ in 0..20_000 {
            let mut system = random_system(&mut random, generators);
            damage(&mut random, &mut system);
            let room = any_room(&mut random, system.len());
            calls.call([&system], [room]);
        }
    }
}
