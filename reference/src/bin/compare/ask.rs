//! The inputs on which ask is compared: reduced systems in many spellings and systems that are not
//! reduced, with targets of all kinds. Where a call is not refused the verdict is checked against the
//! folded graph too, and a member's product is multiplied out again.

use crate::comparison::Comparison;
use crate::entries::ASK;
use crate::inputs::*;
use subgroups_reference::answers::{MEMBER, NOT_A_MEMBER};
use subgroups_reference::decision::check_ask;
use subgroups_reference::random::Random;
use subgroups_reference::records::{freely_reduced, record, system, MOST_RECORDS, RECORD};
use subgroups_reference::reduction::reduction;
use subgroups_reference::refusals::*;
use subgroups_reference::sheets::{Target, ASK_SHEETS, SHEETS};
use subgroups_reference::small;
use subgroups_reference::words::{inverse_letter, LONGEST};

/// The comparison of ask: the system and the target; the product buffer.
type Ask = Comparison<2, 1>;

/// Compares ask on all its inputs and gives the number of calls.
pub fn compare() -> u64 {
    let calls = &mut Ask::new("ask", ASK, ["system", "target"], ["product buffer"]);
    calls.another_check = Some(check_ask);
    sheets(calls);
    system_lengths(calls);
    malformed_systems(calls);
    refusals_in_order(calls);
    buffer_lengths(calls);
    target_lengths(calls);
    one_buffer_for_both(calls);
    damaged_targets(calls);
    small_systems(calls);
    spellings(calls);
    pairs_of_slots(calls);
    triples_of_slots(calls);
    powers(calls);
    long_products(calls);
    random_targets(calls);
    let refusals = [
        TARGET_OR_PRODUCT_MALFORMED,
        PRODUCT_BUFFER_SHORT,
        SYSTEM_NOT_REDUCED,
    ];
    calls.end(&[MEMBER, NOT_A_MEMBER], &refusals)
}

/// Compares a call with a target given as letters and just enough room.
fn call_letters(calls: &mut Ask, system: &[u8], letters: &[u8]) {
    calls.call([system, &record(letters)], [RECORD]);
}

/// The worked sheets on ask as they stand and with other room; the other sheets, given and reduced,
/// with their targets and some others.
fn sheets(calls: &mut Ask) {
    for sheet in &ASK_SHEETS {
        let inputs = [&system(sheet.asked)[..], &record(sheet.target)];
        calls.call(inputs, [sheet.product_room]);
        calls.call_with_all_rooms(inputs, [RECORD]);
    }
    for sheet in &SHEETS {
        let given = system(sheet.given);
        let target = match sheet.target {
            Target::None => "ab",
            Target::Member(target, _) | Target::NotMember(target) => target,
        };
        for system in [&given, &reduction(&given).words] {
            for text in [target, "", "aA", "abBA", "d", "abab", "Cd"] {
                calls.call_with_all_rooms([system, &record(text)], [RECORD]);
            }
        }
    }
}

/// Systems of every length, reduced or not as far as they go, with sound and with refused targets.
fn system_lengths(calls: &mut Ask) {
    calls.walk_lengths(|calls, system| {
        call_letters(calls, system, b"aCa");
        calls.call([system, &record("aa")], [RECORD - 1]);
        calls.call([system, b"aa"], [0]);
    });
}

/// Systems with one byte changed and with two, which break rules 3 to 5 or leave a system reduced or not.
fn malformed_systems(calls: &mut Ask) {
    for_each_malformed_system(|system| call_letters(calls, system, b"abA"));
    for_each_two_faults(|system| call_letters(calls, system, b"c"));
    let reduced = reduction(&mixed_system()).words;
    let target = record(freely_reduced(&reduced).words()[0].letters());
    for base in [&reduced, &letters_of_their_own(MOST_RECORDS)] {
        for_each_changed_byte(base, 0..base.len(), &TELLING_BYTES, |system| {
            calls.call([system, &target], [RECORD]);
        });
        for_each_changed_byte(base, 0..base.len(), b"?e", |system| {
            calls.call([system, &target], [RECORD - 1]);
            calls.call([system, &target[1..]], [RECORD - 1]);
        });
    }
}

/// Faults of the system, the target and the product buffer, two and more at once, where the system
/// is reduced and where it is not.
fn refusals_in_order(calls: &mut Ask) {
    let mut targets = vec![record("").to_vec(), Vec::new()];
    targets.extend(sound_and_refused_records("aab"));
    let reduced = system(&["b", &"a".repeat(LONGEST), "c", "dE"]);
    for system in [sound_and_refused_systems(), broken_systems(reduced)].concat() {
        for target in &targets {
            calls.call_with_all_rooms([&system, target], [RECORD]);
        }
    }
}

/// Every length of the product buffer up to 131 bytes and far longer ones.
fn buffer_lengths(calls: &mut Ask) {
    let mixed = mixed_system();
    for records in [0, 1, 2, 5, MOST_RECORDS] {
        let given = &mixed[..RECORD * records];
        let reduced = reduction(given).words;
        let member = reduced.first_chunk::<RECORD>().copied();
        for system in [given, &reduced] {
            for target in [member.unwrap_or(record("aA")), record("abcabc")] {
                calls.call_with_every_length([system, &target], [RECORD], 0);
            }
            calls.call_with_every_length([system, &record("")[1..]], [RECORD], 0);
        }
    }
}

/// Every length of a target from 0 to 130 bytes and far longer ones, with enough room and with none.
fn target_lengths(calls: &mut Ask) {
    for texts in [&["ab", "ac", "ad"][..], &["ab", "ac", "Bd"], &[]] {
        let given = system(texts);
        for_each_length_of_record("Cd", |target| {
            calls.call([&given, target], [RECORD]);
            calls.call([&given, target], [0]);
        });
    }
}

/// One and the same buffer lent as system and as target, with room for the product and without.
fn one_buffer_for_both(calls: &mut Ask) {
    for both in systems_and_targets_at_once() {
        for room in rooms(RECORD) {
            calls.call_with_one_buffer(&both, [room]);
        }
    }
}

/// Every byte of a target changed to every other, and two at once, over a reduced system; and some of
/// them over one that is not.
fn damaged_targets(calls: &mut Ask) {
    let reduced = system(&["ab", "ac", "ad"]);
    for_each_damaged_record("abCd", |target| calls.call([&reduced, target], [RECORD]));
    let not_reduced = system(&["ab", "ac", "Bd"]);
    for base in records_of("abCd") {
        for_each_changed_byte(&base, 0..RECORD, &TELLING_BYTES, |target| {
            calls.call([&not_reduced, target], [RECORD]);
            calls.call([&reduced, target], [RECORD - 1]);
        });
    }
}

/// All systems of a few short words, with all short targets and with few.
fn small_systems(calls: &mut Ask) {
    for_each_small_system_and_targets(|system, targets| {
        for target in targets {
            call_letters(calls, system, target);
        }
    });
    for_each_small_system(|system| {
        call_letters(calls, system, b"ab");
        call_letters(calls, system, b"");
    });
}

/// All systems of one to four short rows of letters, those that cancel among them.
fn spellings(calls: &mut Ask) {
    for (generators, longest, records) in [(2, 4, 1), (2, 3, 2), (1, 3, 3), (2, 1, 4)] {
        let rows = small::rows(generators, longest);
        small::for_each_system_of(&rows, records, |system| {
            for target in [&b"a"[..], b"aB", b"AabaaA", b"bB"] {
                call_letters(calls, system, target);
            }
        });
    }
}

/// Systems of 16 words of which two, in every two slots and either way round, begin with as many
/// letters alike as just do and just do not leave the system reduced.
fn pairs_of_slots(calls: &mut Ask) {
    for one in 0..MOST_RECORDS {
        for two in (0..MOST_RECORDS).filter(|&two| two != one) {
            for shared in [&b"xy"[..], b"xyz"] {
                for turns in 0..4 {
                    let mut given = letters_of_their_own(MOST_RECORDS);
                    let first = word_with(shared, one, 4, turns & 1 == 1);
                    let second = word_with(shared, two, 5, turns & 2 == 2);
                    replace(&mut given, one, &first);
                    replace(&mut given, two, &second);
                    call_letters(calls, &given, &first);
                }
            }
        }
    }
}

/// Systems of 16 words of which one, in every slot, is wholly cancelled or not between two others, in
/// every two other slots or both in one.
fn triples_of_slots(calls: &mut Ask) {
    for middle in 0..MOST_RECORDS {
        let others = (0..MOST_RECORDS).filter(|&slot| slot != middle);
        for left in others.clone() {
            for right in others.clone() {
                for beginning in *b"YZ" {
                    let mut given = letters_of_their_own(MOST_RECORDS);
                    let [own_left, own_right] = [left, right].map(|slot| b'a' + slot as u8);
                    replace(&mut given, middle, b"xy");
                    if left == right {
                        replace(&mut given, left, &[beginning, own_left, b'X']);
                    } else {
                        replace(&mut given, left, &[own_left, b'X']);
                        replace(&mut given, right, &[beginning, own_right]);
                    }
                    call_letters(calls, &given, &[own_left, own_right]);
                }
            }
        }
    }
}

/// Every power of a letter, beside blank slots, with every power of it as target.
fn powers(calls: &mut Ask) {
    for power in 1..=LONGEST {
        let given = system(&["", &"a".repeat(power), "bB"]);
        for letter in *b"aA" {
            for length in 0..=LONGEST {
                call_letters(calls, &given, &vec![letter; length]);
            }
        }
    }
}

/// Targets of every length whose products have as many factors as letters, of one letter each and of
/// halves alone, and targets one letter away.
fn long_products(calls: &mut Ask) {
    let mut random = Random::new(901);
    let letters = letters_of_their_own(MOST_RECORDS);
    let halves = system(&["zb", "ZZ", "zc", "zd", "", "ze"]);
    for length in 0..=LONGEST {
        for _ in 0..12 {
            let row = random.reduced_letters(MOST_RECORDS, length);
            let by_turns = letters_by_turns(&mut random, length);
            for (given, target) in [(&letters, row), (&halves, by_turns)] {
                call_letters(calls, given, &target);
                if length > 0 {
                    let mut changed = target;
                    changed[random.below(length)] = random.letter(MOST_RECORDS);
                    call_letters(calls, given, &changed);
                }
            }
        }
    }
}

/// Letters from b to e, by turns capitals and small ones, of which no neighbours cancel.
fn letters_by_turns(random: &mut Random, length: usize) -> Vec<u8> {
    let mut letters: Vec<u8> = Vec::with_capacity(length);
    while letters.len() < length {
        let letter = b'b' + random.below(4) as u8;
        let letter = match letters.len() % 2 {
            0 => inverse_letter(letter),
            _ => letter,
        };
        if letters.last() != Some(&inverse_letter(letter)) {
            letters.push(letter);
        }
    }
    letters
}

/// Random systems of all kinds, given, reduced, spelled otherwise, changed and damaged, each with several
/// targets and any room.
fn random_targets(calls: &mut Ask) {
    const TARGETS: usize = 5;
    let mut random = Random::new(902);
    for generators in GENERATORS {
        for round in 0..2_500 {
            let given = random.system_to_reduce(generators);
            let mut reduced = reduction(&given).words;
            let words = [&given, &reduced].map(|system| freely_reduced(system));
            let mut target = record("");
            for _ in 0..TARGETS {
                let [given_words, words] = words.each_ref().map(|system| system.words());
                target = record(any_target(&mut random, given_words, words, generators));
                let spelled = random.unreduced_system(words, generators);
                for system in [&given, &reduced, &spelled] {
                    calls.call([system, &target], [RECORD + random.below(3)]);
                }
            }
            let room = any_room(&mut random, RECORD);
            for changed in changed_systems(&mut random, &reduced, generators) {
                calls.call([&changed, &target], [RECORD]);
                calls.call([&changed, &target], [room]);
            }
            if round % 4 == 0 {
                damage(&mut random, &mut target);
                calls.call([&reduced, &target], [room]);
                damage(&mut random, &mut reduced);
                calls.call([&reduced, &target], [room]);
            }
        }
    }
}
