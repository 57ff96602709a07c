//! The inputs on which reduce is compared: systems with few and many moves, with words buffers and
//! logs of every length around what they need.

use crate::comparison::Comparison;
use crate::entries::REDUCE;
use crate::inputs::*;
use crate::long_logs::for_each_long_log;
use crate::move_counts::MoveCounts;
use subgroups_reference::answers::DONE;
use subgroups_reference::logs::LOG_RECORD;
use subgroups_reference::random::{Kind, Random};
use subgroups_reference::records::{system, MOST_RECORDS};
use subgroups_reference::reduction::reduction;
use subgroups_reference::refusals::{LOG_BUFFER_SHORT, WORDS_BUFFER_SHORT};
use subgroups_reference::words::LONGEST;

/// The comparison of reduce: the system; the words buffer and the log.
type Reduce = Comparison<1, 2>;

/// Compares reduce on all its inputs and gives the number of calls.
pub fn compare() -> u64 {
    let calls = &mut Reduce::new("reduce", REDUCE, ["system"], ["words buffer", "log"]);
    calls.moves = Some(MoveCounts::default());
    for system in sheet_systems() {
        call_with_all_logs(calls, &system);
        calls.call_with_all_rooms([&system], lengths_needed(&system));
    }
    calls.walk_lengths(|calls, system| {
        calls.call([system], [system.len(), 25 * LOG_RECORD]);
        calls.call([system], [system.len(), 0]);
        calls.call([system], [system.len() / 2, 0]);
    });
    for_each_malformed_system(|system| calls.call([system], [system.len(), 250 * LOG_RECORD]));
    for_each_two_faults(|system| calls.call([system], [system.len(), 10 * LOG_RECORD]));
    for system in sound_and_refused_systems() {
        calls.call_with_all_rooms([&system], lengths_needed(&system));
    }
    for_each_number_of_records(|system| {
        let [words, log] = lengths_needed(system);
        calls.call_with_every_length([system], [words, log], 0);
        calls.call_with_every_length([system], [words, 0], 0);
        for long in LONG_LENGTHS {
            calls.call([system], [words, long]);
        }
    });
    for_each_small_system(|system| {
        calls.call([system], [system.len(), 80 * LOG_RECORD]);
    });
    powers(calls);
    log_lengths(calls);
    random_systems(calls);
    long_logs(calls);
    let short_logs = calls.seen.refused_with(&[LOG_BUFFER_SHORT]);
    assert!(short_logs > 40_000, "only {short_logs} logs are too short");
    let count = calls.end(&[DONE], &[WORDS_BUFFER_SHORT, LOG_BUFFER_SHORT]);
    calls.end_moves();
    count
}

/// The lengths of the words buffer and of the log that reduce needs; no log if the system is refused.
fn lengths_needed(system: &[u8]) -> [usize; 2] {
    [system.len(), reduction(system).log.len()]
}

/// Compares calls with every length of the log from 0 to a little more than needed.
fn call_with_all_logs(calls: &mut Reduce, system: &[u8]) {
    let [words, log] = lengths_needed(system);
    for length in 0..=log + LOG_RECORD + 2 {
        calls.call([system], [words, length]);
    }
}

/// Powers of one word, which take as many moves as Euclid's steps of subtraction.
fn powers(calls: &mut Reduce) {
    for root in ["a", "B", "ab", "abA", "aaB"] {
        let most = LONGEST / root.len();
        for one in 0..=most {
            for other in (0..=most).filter(|other| (one + other) % 3 > 0) {
                let given = system(&[&root.repeat(one), &root.repeat(other)]);
                calls.call([&given], [given.len(), 70 * LOG_RECORD]);
            }
        }
    }
    let mut random = Random::new(701);
    for _ in 0..2_000 {
        let records = random.between(1, MOST_RECORDS);
        let given = random.system_of_powers(2, records);
        let [words, log] = lengths_needed(&given);
        calls.call([&given], [words, any_room(&mut random, log)]);
    }
}

/// Random systems with every length of the log from 0 to a little more than needed, in bytes.
fn log_lengths(calls: &mut Reduce) {
    let mut random = Random::new(702);
    for generators in GENERATORS {
        for _ in 0..60 {
            let given = random.system_to_reduce(generators);
            if lengths_needed(&given)[1] < 70 * LOG_RECORD {
                call_with_all_logs(calls, &given);
            }
        }
    }
}

/// Random systems of all kinds with any room, and damaged ones.
fn random_systems(calls: &mut Reduce) {
    let mut random = Random::new(703);
    for generators in GENERATORS {
        for round in 0..24_000 {
            let mut given = match round % 4 {
                0 => random.system(Kind::Reduced, generators, MOST_RECORDS, 55, LONGEST),
                _ => random.system_to_reduce(generators),
            };
            let needed = lengths_needed(&given);
            let lengths = needed.map(|needed| any_room(&mut random, needed));
            calls.call([&given], lengths);
            if round % 16 == 0 {
                calls.call_with_all_rooms([&given], needed);
                damage(&mut random, &mut given);
                calls.call([&given], lengths);
            }
        }
    }
}

/// Logs with room for as many moves as the bound, for the systems with the most moves so far among others.
fn long_logs(calls: &mut Reduce) {
    for_each_long_log(704, calls.systems_with_most_moves(), |system, log| {
        calls.call([system], [system.len(), log]);
        calls.answer()
    });
}
