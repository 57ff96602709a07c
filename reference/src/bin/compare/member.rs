//! The inputs on which member is compared: targets that are products, that just fail to be, and any
//! others. Where a call is not refused the verdict is checked against the folded graph too, a
//! member's product is multiplied out again, and reduce and ask in turn must give the same. Refusals
//! that reduce or ask of the given system must give too are compared with theirs.

use crate::comparison::{Comparison, Seen};
use crate::entries::MEMBER;
use crate::in_turn::{check_in_turn, check_refusal, REFUSALS_OF_ASK, REFUSALS_OF_REDUCE};
use crate::inputs::*;
use crate::long_logs::for_each_long_log;
use crate::move_counts::MoveCounts;
use subgroups_reference::answers;
use subgroups_reference::decision::check_member;
use subgroups_reference::logs::LOG_RECORD;
use subgroups_reference::random::Random;
use subgroups_reference::records::{freely_reduced, record, system, MOST_RECORDS, RECORD};
use subgroups_reference::reduction::reduction;
use subgroups_reference::refusals::*;
use subgroups_reference::sheets::{Target, SHEETS};
use subgroups_reference::words::LONGEST;

/// The comparison of member: the system and the target; the words buffer, the log and the product buffer.
type Member = Comparison<2, 3>;

/// Compares member on all its inputs and gives the number of calls.
pub fn compare() -> u64 {
    let inputs = ["system", "target"];
    let buffers = ["words buffer", "log", "product buffer"];
    let calls = &mut Member::new("member", MEMBER, inputs, buffers);
    calls.another_check = Some(|inputs, buffers, answer| {
        check_member(inputs, buffers, answer)?;
        check_in_turn(inputs, buffers, answer)
    });
    calls.refusal_check = Some(check_refusal);
    calls.moves = Some(MoveCounts::default());
    sheets(calls);
    system_lengths(calls);
    for_each_malformed_system(|system| call_letters(calls, system, b"abA", 250 * LOG_RECORD));
    for_each_two_faults(|system| call_letters(calls, system, b"c", 10 * LOG_RECORD));
    refusals_in_order(calls);
    buffer_lengths(calls);
    log_lengths(calls);
    target_lengths(calls);
    one_buffer_for_both(calls);
    let given = system(&["ab", "ac", "Bd"]);
    let needed = lengths_needed(&given);
    for_each_damaged_record("abCd", |target| calls.call([&given, target], needed));
    small_systems(calls);
    powers(calls);
    random_targets(calls);
    long_logs(calls);
    let refusals = [
        TARGET_OR_PRODUCT_MALFORMED,
        WORDS_BUFFER_SHORT,
        PRODUCT_BUFFER_SHORT,
        LOG_BUFFER_SHORT,
    ];
    let short_logs = calls.seen.refused_with(&[LOG_BUFFER_SHORT]);
    assert!(short_logs > 10_000, "only {short_logs} logs are too short");
    let count = calls.end(&[answers::MEMBER, answers::NOT_A_MEMBER], &refusals);
    say_what_agreed_in_turn(&calls.seen);
    calls.end_moves();
    count
}

/// Says how many calls agreed with reduce and ask in turn, and how many refusals with either.
fn say_what_agreed_in_turn(seen: &Seen) {
    let not_refused = seen.not_refused();
    println!("member: {not_refused} calls that are not refused agree with reduce and ask in turn");
    for (name, refusals) in [
        ("reduce", &REFUSALS_OF_REDUCE[..]),
        ("ask of the given system", &REFUSALS_OF_ASK),
    ] {
        let refused = seen.refused_with(refusals);
        println!(
            "member: {refused} calls refused with one of {refusals:?} are refused alike by {name}"
        );
    }
}

/// The lengths of the words buffer, the log and the product buffer that member needs.
fn lengths_needed(system: &[u8]) -> [usize; 3] {
    [system.len(), reduction(system).log.len(), RECORD]
}

/// Compares a call with a target given as letters and room for everything.
fn call_letters(calls: &mut Member, system: &[u8], letters: &[u8], log: usize) {
    calls.call([system, &record(letters)], [system.len(), log, RECORD]);
}

/// The worked sheets, with their targets and some others.
fn sheets(calls: &mut Member) {
    for sheet in &SHEETS {
        let given = system(sheet.given);
        let target = match sheet.target {
            Target::None => "ab",
            Target::Member(target, _) | Target::NotMember(target) => target,
        };
        for text in [target, "", "aA", "abBA", "d", "abab", "Cd"] {
            calls.call_with_all_rooms([&given, &record(text)], lengths_needed(&given));
        }
    }
}

/// Systems of every length, with sound and with refused targets and with short buffers.
fn system_lengths(calls: &mut Member) {
    calls.walk_lengths(|calls, system| {
        call_letters(calls, system, b"aa", 25 * LOG_RECORD);
        calls.call([system, &record("aa")], [system.len() / 2, 0, RECORD - 1]);
        calls.call([system, b"aa"], [0, 0, 0]);
    });
}

/// Faults of the system, the target and the three buffers, two and more at once.
fn refusals_in_order(calls: &mut Member) {
    const LOG: usize = 100 * LOG_RECORD;
    let mut targets = vec![record("").to_vec(), Vec::new()];
    targets.extend(sound_and_refused_records("aab"));
    for system in sound_and_refused_systems() {
        for target in &targets {
            for words in rooms(system.len()) {
                for (log, product) in [(0, 0), (0, RECORD), (LOG, RECORD - 1), (LOG, RECORD)] {
                    calls.call([&system, target], [words, log, product]);
                }
            }
        }
    }
}

/// Every length of each of the three buffers up to a little more than needed.
fn buffer_lengths(calls: &mut Member) {
    let mixed = mixed_system();
    for records in [0, 1, 2, 5, MOST_RECORDS] {
        let given = &mixed[..RECORD * records];
        let reduced = reduction(given).words;
        let member = reduced.first_chunk::<RECORD>().copied();
        for target in [member.unwrap_or(record("aA")), record("abcabc")] {
            for buffer in 0..3 {
                calls.call_with_every_length([given, &target], lengths_needed(given), buffer);
            }
        }
    }
}

/// Every length of the log from 0 to a little more than needed, on the worked sheets and on random systems.
fn log_lengths(calls: &mut Member) {
    let mut random = Random::new(804);
    let mut systems = sheet_systems();
    for generators in GENERATORS {
        systems.extend((0..20).map(|_| random.system_to_reduce(generators)));
    }
    for given in systems {
        let [words, log, product] = lengths_needed(&given);
        if log < 70 * LOG_RECORD {
            for length in 0..=log + LOG_RECORD + 2 {
                calls.call([&given, &record("ab")], [words, length, product]);
            }
        }
    }
}

/// Every length of a target from 0 to 130 bytes, with enough room and with little.
fn target_lengths(calls: &mut Member) {
    for system in [system(&["ab", "ac", "Bd"]), Vec::new()] {
        for_each_length_of_record("Cd", |target| {
            calls.call([&system, target], [system.len(), LOG_RECORD, RECORD]);
            calls.call([&system, target], [0, LOG_RECORD, 0]);
        });
    }
}

/// One and the same buffer lent as system and as target, with room for words and product and without.
fn one_buffer_for_both(calls: &mut Member) {
    for both in systems_and_targets_at_once() {
        for words in rooms(both.len()) {
            for product in rooms(RECORD) {
                calls.call_with_one_buffer(&both, [words, LOG_RECORD, product]);
            }
        }
    }
}

/// All systems of two and three short words with all short targets.
fn small_systems(calls: &mut Member) {
    for_each_small_system_and_targets(|system, targets| {
        let [_, log, _] = lengths_needed(system);
        for target in targets {
            call_letters(calls, system, target, log);
        }
    });
}

/// Long powers of one generator, which take very many moves, with powers and others as targets.
fn powers(calls: &mut Member) {
    let mut random = Random::new(803);
    for _ in 0..1_000 {
        let records = random.between(1, MOST_RECORDS);
        let given = random.system_of_powers(2, records);
        let [_, log, _] = lengths_needed(&given);
        for letter in *b"aAbB" {
            let target = vec![letter; random.between(0, LONGEST)];
            call_letters(calls, &given, &target, log);
        }
        call_letters(calls, &given, b"abA", any_room(&mut random, log));
    }
}

/// Random systems of all kinds, each with several targets and any room, and damaged ones.
fn random_targets(calls: &mut Member) {
    const TARGETS: usize = 8;
    let mut random = Random::new(802);
    for generators in GENERATORS {
        for round in 0..12_000 {
            let mut given = random.system_to_reduce(generators);
            let reduction = reduction(&given);
            let given_words = freely_reduced(&given);
            let reduced_words = freely_reduced(&reduction.words);
            let needed = [given.len(), reduction.log.len(), RECORD];
            let mut target = record("");
            for _ in 0..TARGETS {
                let (given_words, reduced_words) = (given_words.words(), reduced_words.words());
                let letters = any_target(&mut random, given_words, reduced_words, generators);
                target = record(letters);
                let more = [3, 6, 3].map(|most| random.below(most));
                let lengths = [0, 1, 2].map(|buffer| needed[buffer] + more[buffer]);
                calls.call([&given, &target], lengths);
            }
            let any_lengths = needed.map(|needed| any_room(&mut random, needed));
            calls.call([&given, &target], any_lengths);
            if round % 4 == 0 {
                damage(&mut random, &mut target);
                calls.call([&given, &target], any_lengths);
                damage(&mut random, &mut given);
                calls.call([&given, &target], any_lengths);
            }
        }
    }
}

/// Logs with room for as many moves as the bound, for the systems with the most moves so far among
/// others; the target is the system's last word, or one that few systems generate.
fn long_logs(calls: &mut Member) {
    let mut random = Random::new(805);
    for_each_long_log(806, calls.systems_with_most_moves(), |system, log| {
        let target = match system.last_chunk() {
            Some(last) if random.below(2) == 0 => *last,
            _ => record("abA"),
        };
        calls.call([system, &target], [system.len(), log, RECORD]);
        calls.answer()
    });
}
