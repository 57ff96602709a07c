//! The inputs on which trace is compared: graphs of all sizes with little and with much to fold, and targets
//! of all kinds. The table holds other bytes before each call, which a refusal leaves; after an answer only
//! what stands beside it is looked at. Each verdict is compared with those of member of both versions, and
//! where a group acts on points with the action. A refusal that is member's too is compared with member's.

use crate::comparison::Comparison;
use crate::entries::{EDGE, MEMBER, TRACE};
use crate::in_turn::gives;
use crate::inputs::*;
use crate::lent::Contents;
use subgroups_reference::actions::Action;
use subgroups_reference::answers::{self, Answer, NOT_A_MEMBER, REFUSED};
use subgroups_reference::bound::most_moves_of;
use subgroups_reference::graph_sheets::GRAPH_SHEETS;
use subgroups_reference::logs::LOG_RECORD;
use subgroups_reference::program::MOVES_IN_LOG;
use subgroups_reference::random::{Kind, Random};
use subgroups_reference::records::{
    freely_reduced, record, system, LONGEST_SYSTEM, MOST_RECORDS, RECORD,
};
use subgroups_reference::reduction::reduction;
use subgroups_reference::refusals::*;
use subgroups_reference::words::{inverse_letters, Word, LONGEST};

/// The comparison of trace: the system and the target; the table.
type Trace = Comparison<2, 1>;

/// The number of edges that are just enough, as it stands in the requirements.
const ENOUGH: usize = 1008;

/// The bytes of a table that is just long enough.
const TABLE: usize = EDGE * ENOUGH;

/// Numbers of edges around those that are just enough.
const EDGES: [usize; 6] = [0, 1, ENOUGH - 1, ENOUGH, ENOUGH + 1, 2000];

/// The most edges that are lent, more than the numbers of an edge can count.
const LONGEST_TABLE: usize = 70_000;

/// Compares trace on all its inputs and gives the number of calls.
pub fn compare() -> u64 {
    let inputs = ["system", "target"];
    let calls = &mut Trace::with_working_space("trace", TRACE, inputs, ["table"], contents());
    calls.another_check = Some(check_answer);
    calls.refusal_check = Some(check_refusal);
    sheets(calls);
    system_lengths(calls);
    malformed_systems(calls);
    refusals_in_order(calls);
    table_lengths(calls);
    target_lengths(calls);
    one_buffer_for_both(calls);
    damaged_targets(calls);
    small_systems(calls);
    powers(calls);
    longest_systems(calls);
    pairs_of_slots(calls);
    conjugates_in_slots(calls);
    finite_indices(calls);
    random_targets(calls);
    let refusals = [TARGET_OR_PRODUCT_MALFORMED, EDGE_TABLE_SHORT];
    let count = calls.end(&[answers::MEMBER, NOT_A_MEMBER], &refusals);
    let not_refused = calls.seen.not_refused();
    println!("trace: {not_refused} calls that are not refused agree with member of both versions");
    count
}

/// What tables hold before a call: any bytes, zeros, and edges such as a call might leave, between few and
/// between many points, with few and with many letters, as bytes and counted from 0.
fn contents() -> Contents {
    let mut random = Random::new(1301);
    let mut bytes = Vec::new();
    while bytes.len() < 2 * EDGE * LONGEST_TABLE {
        bytes.extend(any_bytes(&mut random, 40 * EDGE));
        bytes.extend([0; 20 * EDGE]);
        for (points, letters) in [(2, 1), (3, 2), (3, 3), (993, 26)] {
            for _ in 0..60 {
                let first = [usize::from(b'a'), 0][random.below(2)];
                let letter = first + random.below(letters);
                for number in [random.below(points), letter, random.below(points)] {
                    bytes.extend((number as u16).to_ne_bytes());
                }
            }
        }
    }
    Contents::new(bytes, EDGE, random)
}

/// The verdicts of member of the proved library and of the Rust version, with enough room.
fn verdicts_of_members(inputs: [&[u8]; 2]) -> [u64; 2] {
    let mut words = [0; LONGEST_SYSTEM];
    let mut log = vec![0; LOG_RECORD * MOVES_IN_LOG];
    let mut product = [0; RECORD];
    let mut numbers = [0; 7];
    let buffers = [&mut words[..], &mut log, &mut product];
    (MEMBER.proved)(inputs, buffers, &mut numbers);
    let answer = (MEMBER.rust)(inputs, [&mut words, &mut log, &mut product]);
    let [verdict, _, _, moves, ..] = numbers;
    assert!(
        verdict == REFUSED || moves <= most_moves_of(inputs[0]) as u64,
        "there are more moves than the bound"
    );
    [verdict, answer.verdict]
}

/// Checks a call that was not refused: the table was long enough, and member gives the same verdict.
fn check_answer(
    inputs: [&[u8]; 2],
    [table]: [&[u8]; 1],
    answer: Answer,
) -> Result<(), &'static str> {
    if table.len() < TABLE {
        return Err("the number of edges demands refusal 21");
    }
    let [proved, rust] = verdicts_of_members(inputs);
    if proved != answer.verdict {
        return Err("member of the proved library gives another verdict than trace");
    }
    if rust != answer.verdict {
        return Err("member of the Rust version gives another verdict than trace");
    }
    Ok(())
}

/// Checks a refusal: where the table is too short for what member does not refuse, and otherwise the one
/// that member of the proved library gives without room.
fn check_refusal(
    inputs: [&[u8]; 2],
    [table]: [&[u8]; 1],
    answer: Answer,
) -> Result<(), &'static str> {
    let agrees = match answer.number {
        EDGE_TABLE_SHORT => table.len() < TABLE && !verdicts_of_members(inputs).contains(&REFUSED),
        _ => gives(MEMBER, inputs, [&[]; 3], answer),
    };
    if agrees {
        Ok(())
    } else {
        Err("the refusal of trace does not go with the number of edges or with member")
    }
}

/// Compares a call with a target given as letters and just enough edges.
fn call_letters(calls: &mut Trace, system: &[u8], letters: &[u8]) {
    calls.call([system, &record(letters)], [TABLE]);
}

/// Compares calls with numbers of edges around those that are just enough.
fn call_with_all_tables(calls: &mut Trace, inputs: [&[u8]; 2]) {
    for edges in EDGES {
        calls.call(inputs, [EDGE * edges]);
    }
}

/// The systems that were followed by hand, and those of the other sheets, given and reduced, with some
/// targets.
fn sheets(calls: &mut Trace) {
    for (texts, target, is_member) in GRAPH_SHEETS {
        call_with_all_tables(calls, [&system(texts), &record(target)]);
        if (calls.answer().verdict == answers::MEMBER) != is_member {
            calls.end_with("the graph followed by hand gives another verdict");
        }
    }
    for given in sheet_systems() {
        for system in [&given, &reduction(&given).words] {
            for text in ["", "a", "aA", "abBA", "d", "abab", "Cd", "adbAcACaBD"] {
                call_with_all_tables(calls, [system, &record(text)]);
            }
        }
    }
}

/// Systems of every length, with sound and with refused targets and with a short table.
fn system_lengths(calls: &mut Trace) {
    calls.walk_lengths(|calls, system| {
        call_letters(calls, system, b"aCa");
        calls.call([system, &record("aa")], [TABLE - EDGE]);
        calls.call([system, b"aa"], [0]);
    });
}

/// Systems with one byte changed and with two, which break rules 3 to 5 or are other systems; of these only
/// some get an answer.
fn malformed_systems(calls: &mut Trace) {
    for_each_malformed_system(|system| {
        let table = match calls.seen.calls % 8 {
            0 => TABLE,
            _ => TABLE - EDGE,
        };
        calls.call([system, &record("abA")], [table]);
    });
    for_each_two_faults(|system| call_letters(calls, system, b"c"));
    let base = letters_of_their_own(MOST_RECORDS);
    for_each_changed_byte(&base, 0..base.len(), b"?e", |system| {
        calls.call([system, &record("ab")], [TABLE - EDGE]);
        calls.call([system, &record("ab")[1..]], [TABLE - EDGE]);
    });
}

/// Faults of the system, the target and the table, two and more at once.
fn refusals_in_order(calls: &mut Trace) {
    let mut targets = vec![record("").to_vec(), Vec::new()];
    targets.extend(sound_and_refused_records("aab"));
    for system in sound_and_refused_systems() {
        for target in &targets {
            call_with_all_tables(calls, [&system, target]);
        }
    }
}

/// Every number of edges from none to 1,100, and far more.
fn table_lengths(calls: &mut Trace) {
    let mixed = mixed_system();
    for records in [0, 1, MOST_RECORDS] {
        let given = &mixed[..RECORD * records];
        for target in [&record("aA")[..], &record("abcabc"), &record("")[1..]] {
            for edges in (0..=1100).chain([4096, 65_535, 65_536, LONGEST_TABLE]) {
                calls.call([given, target], [EDGE * edges]);
            }
        }
    }
}

/// Every length of a target from 0 to 130 bytes and far longer ones, with enough edges and with none.
fn target_lengths(calls: &mut Trace) {
    for given in [system(&["ab", "ac", "Bd"]), Vec::new()] {
        for_each_length_of_record("Cd", |target| {
            calls.call([&given, target], [TABLE]);
            calls.call([&given, target], [0]);
        });
    }
}

/// One and the same buffer lent as system and as target, with enough edges and with fewer.
fn one_buffer_for_both(calls: &mut Trace) {
    for both in systems_and_targets_at_once() {
        for edges in EDGES {
            calls.call_with_one_buffer(&both, [EDGE * edges]);
        }
    }
}

/// Every byte of a target changed to every other, and two at once.
fn damaged_targets(calls: &mut Trace) {
    let given = system(&["ab", "ac", "Bd"]);
    for_each_damaged_record("abCd", |target| calls.call([&given, target], [TABLE]));
    for base in records_of("abCd") {
        for_each_changed_byte(&base, 0..RECORD, &TELLING_BYTES, |target| {
            calls.call([&given, target], [TABLE - EDGE]);
        });
    }
}

/// All systems of a few short words with all short targets.
fn small_systems(calls: &mut Trace) {
    for_each_small_system_and_targets(|system, targets| {
        for target in targets {
            call_letters(calls, system, target);
        }
    });
}

/// Two powers of one letter, which fold to a loop as long as their greatest common divisor, and long powers
/// in many slots, with powers as targets.
fn powers(calls: &mut Trace) {
    let mut random = Random::new(1302);
    for one in 1..=LONGEST {
        for other in 0..=one {
            let given = system(&[&"a".repeat(one), &"A".repeat(other)]);
            for power in [1, one - other, random.below(RECORD)] {
                call_letters(calls, &given, &vec![b'A'; power]);
            }
        }
    }
    for _ in 0..400 {
        let records = random.between(1, MOST_RECORDS);
        let given = random.system_of_powers(2, records);
        for letter in *b"aAbB" {
            let power = random.below(RECORD);
            call_letters(calls, &given, &vec![letter; power]);
        }
    }
}

/// Systems of 16 words of 63 letters over few generators: of letters chosen alike, freely reduced, and
/// with common beginnings and with common ends.
fn longest_systems(calls: &mut Trace) {
    let mut random = Random::new(1303);
    let (records, longest) = (MOST_RECORDS, LONGEST);
    for generators in [1, 2, 3] {
        for round in 0..240 {
            let kind = Kind::ALL[round % 2];
            let given = match round % 4 {
                0 | 1 => random.system(kind, generators, records, longest, longest),
                _ => random.system_of_common_beginnings(generators, records, longest, longest),
            };
            let given = match round % 4 {
                3 => inverses(&given),
                _ => given,
            };
            call_with_targets(calls, &mut random, &given, generators, 3);
        }
    }
}

/// A system of the 63rd power of a letter of its own in each slot, in which nothing is folded.
fn full_powers() -> Vec<u8> {
    let letters = b'a'..=b'p';
    letters
        .flat_map(|letter| record([letter; LONGEST]))
        .collect()
}

/// Random letters from q to z and their capitals, of which no neighbours cancel.
fn letters_of_no_slot(random: &mut Random, length: usize) -> Vec<u8> {
    let letters = random.reduced_letters(10, length);
    letters.iter().map(|letter| letter + 16).collect()
}

/// Systems of 16 words of 63 letters in which nothing is folded but what two of them begin with alike, or
/// end with where they are turned over, in many two slots; the target is what is left where that cancels
/// between the two, and then one letter less.
fn pairs_of_slots(calls: &mut Trace) {
    let mut random = Random::new(1306);
    for one in 0..MOST_RECORDS {
        let others = [0, (one + 1) % MOST_RECORDS, MOST_RECORDS - 1];
        for two in others.into_iter().filter(|&two| two != one) {
            for turns in 0..4 {
                let shared = random.between(LONGEST / 2 + 1, LONGEST - 1);
                let beginning = letters_of_no_slot(&mut random, shared);
                let mut given = full_powers();
                for (slot, turn) in [(one, 1), (two, 2)] {
                    let word = word_with(&beginning, slot, LONGEST, turns & turn == turn);
                    replace(&mut given, slot, &word);
                }
                let left = vec![b'A' + one as u8; LONGEST - shared];
                let right = vec![b'a' + two as u8; LONGEST - shared];
                call_letters(calls, &given, &[&left[..], &right].concat());
                call_letters(calls, &given, &[&left[1..], &right].concat());
            }
        }
    }
}

/// Systems of 16 words in which nothing is folded but the two ends of a conjugate, in every slot, with
/// conjugates of powers as targets.
fn conjugates_in_slots(calls: &mut Trace) {
    let mut random = Random::new(1307);
    for slot in 0..MOST_RECORDS {
        let around = letters_of_no_slot(&mut random, 30);
        let inside = |letters: &[u8]| [&around, letters, &inverse_letters(&around)].concat();
        let mut given = full_powers();
        replace(&mut given, slot, &inside(b"a"));
        for letters in [&b"A"[..], b"aa", b"aaa", b"b"] {
            call_letters(calls, &given, &inside(letters));
        }
    }
}

/// The system of the inverses of the freely reduced words.
fn inverses(given: &[u8]) -> Vec<u8> {
    let inverse = |word: &Word| record(inverse_letters(word.letters()));
    freely_reduced(given)
        .words()
        .iter()
        .flat_map(inverse)
        .collect()
}

/// Compares calls with as many targets of all kinds for a system, with just enough edges and with more.
fn call_with_targets(
    calls: &mut Trace,
    random: &mut Random,
    given: &[u8],
    generators: usize,
    targets: usize,
) {
    let reduced = reduction(given).words;
    let words = [given, &reduced].map(freely_reduced);
    for _ in 0..targets {
        let [given_words, words] = words.each_ref().map(|system| system.words());
        let target = any_target(random, given_words, words, generators);
        let more = [0, 0, 0, 1, 992][random.below(5)];
        calls.call([given, &record(target)], [TABLE + EDGE * more]);
    }
}

/// Schreier generators of subgroups of finite index, as they come and after random moves, all of them and
/// with some left out, with targets that are judged by the action on points too.
fn finite_indices(calls: &mut Trace) {
    let mut random = Random::new(1304);
    for generators in [2, 3] {
        for points in 2..=8 {
            for round in 0..200 {
                let action = random.action(generators, points);
                let mut words = action.schreier_generators(&mut random);
                let generating = words.len();
                words.truncate(MOST_RECORDS);
                if round % 4 == 0 {
                    words.swap_remove(random.below(words.len()));
                }
                let are_all = words.len() == generating;
                for _ in 0..[0, 0, 4, 12][round / 4 % 4] {
                    random.any_move(words.len()).make(&mut words);
                }
                call_with_action(calls, &mut random, &action, &words, are_all);
            }
        }
    }
}

/// Compares calls with several targets for a system of words that lead the first point of an action back to
/// itself, of which a target is a member only if it does so too, and, where the words generate all these,
/// just then.
fn call_with_action(
    calls: &mut Trace,
    random: &mut Random,
    action: &Action,
    words: &[Word],
    are_all: bool,
) {
    let given: Vec<u8> = words
        .iter()
        .flat_map(|word| record(word.letters()))
        .collect();
    for _ in 0..10 {
        let target = any_target(random, words, words, action.generators());
        call_letters(calls, &given, &target);
        let is_member = calls.answer().verdict == answers::MEMBER;
        let returns = action.returns(&target);
        if is_member != returns && (is_member || are_all) {
            calls.end_with("the action on points gives another verdict");
        }
    }
}

/// A random system of words up to a length: of any letters, with products of others among them, with common
/// halves, beginnings or ends, of conjugates, and of powers of a word.
fn any_system(random: &mut Random, generators: usize, records: usize, longest: usize) -> Vec<u8> {
    let kind = Kind::ALL[random.below(Kind::ALL.len())];
    match random.below(7) {
        0 => random.system(kind, generators, records, 0, longest),
        1 => random.dependent_system(generators, records, 0, longest / 2),
        2 => random.system_of_shared_halves(generators, records, longest / 2),
        3 => random.system_of_common_beginnings(generators, records, 0, longest),
        4 => inverses(&random.system_of_common_beginnings(generators, records, 0, longest)),
        5 => random.system_of_conjugates(generators, records, longest),
        _ => random.system_of_powers_of_a_word(generators, records, longest),
    }
}

/// The system with some words in between replaced by such as are blank or freely reduce to nothing, and the
/// others spelled in any way.
fn with_empty_words(random: &mut Random, given: &[u8], generators: usize) -> Vec<u8> {
    let mut words = freely_reduced(given);
    for word in words.words_mut() {
        if random.below(3) == 0 {
            *word = Word::EMPTY;
        }
    }
    random.unreduced_system(words.words(), generators)
}

/// A random system over this many generators, most of them short, some of any size and some with many words.
fn system_of_any_size(random: &mut Random, round: usize, generators: usize) -> Vec<u8> {
    let (records, longest) = match round % 20 {
        0 => (random.below(MOST_RECORDS + 1), LONGEST),
        1 => (MOST_RECORDS, 10),
        _ => (random.below(6), random.between(2, 14)),
    };
    match round % 80 {
        40 => random.system_to_reduce(generators),
        60 => random_system(random, generators),
        _ => any_system(random, generators, records, longest),
    }
}

/// Random systems of all kinds, each with several targets, and damaged ones with any number of edges.
fn random_targets(calls: &mut Trace) {
    let mut random = Random::new(1305);
    for round in 0..38_000 {
        let generators = [1, 2, 2, 3, 3, 5, random.between(4, 26)][round % 7];
        let mut given = system_of_any_size(&mut random, round, generators);
        if round % 3 == 0 {
            given = with_empty_words(&mut random, &given, generators);
        }
        call_with_targets(calls, &mut random, &given, generators, 6);
        if round % 4 == 0 {
            let mut target = record(random.cancelling_letters(generators, LONGEST));
            let edges = any_room(&mut random, ENOUGH);
            calls.call([&given, &target], [EDGE * edges]);
            damage(&mut random, &mut target);
            calls.call([&given, &target], [EDGE * edges]);
            damage(&mut random, &mut given);
            calls.call([&given, &target], [EDGE * edges]);
        }
    }
}
