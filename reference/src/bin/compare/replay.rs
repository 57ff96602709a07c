//! The inputs on which replay is compared: logs of every length, those of reduce and any others, with
//! the lengths of their run and with wrong ones, damaged, and too long in their results, run forward
//! and backward. How many calls of each kind agree, and how far their logs were run, is counted.

use crate::changed_logs::*;
use crate::comparison::Comparison;
use crate::entries::REPLAY;
use crate::inputs::*;
use subgroups_reference::answers::{Answer, DONE};
use subgroups_reference::logs::{write_log, LogRecord, Rule, LOG_RECORD};
use subgroups_reference::made_logs::{every_move, with_lengths_of_the_run};
use subgroups_reference::moves::{Form, Move};
use subgroups_reference::random::Random;
use subgroups_reference::records::{freely_reduced, record, system, MOST_RECORDS, RECORD};
use subgroups_reference::reduction::{reduction, Reduction};
use subgroups_reference::refusals::*;
use subgroups_reference::words::{inverse_letters, Word, LONGEST};
use subgroups_reference::Direction;

/// The comparison of replay: the system, the log and the direction; the words buffer.
type Replay = Comparison<3, 1>;

/// The byte that asks for forward.
const FORWARD: &[u8] = &[0];
/// A byte that asks for backward.
const BACKWARD: &[u8] = &[1];
/// Bytes that ask for both directions, backward by several.
const FLAGS: [&[u8]; 4] = [FORWARD, BACKWARD, &[2], &[255]];

/// Compares replay on all its inputs and gives the number of calls.
pub fn compare() -> u64 {
    let inputs = ["system", "log", "backward"];
    let calls = &mut Replay::new("replay", REPLAY, inputs, ["words buffer"]);
    calls.kind_of_call = Some(kind_of_call);
    for given in sheet_systems() {
        let reduction = reduction(&given);
        call_with_all_rooms(calls, &given, &reduction.log);
        call_with_all_rooms(calls, &reduction.words, &reduction.log);
    }
    system_lengths(calls);
    let mut random = Random::new(401);
    for_each_malformed_system(|system| {
        let backward = FLAGS[random.below(FLAGS.len())];
        call_with_lengths_of_the_run(calls, system, b"a3b s00\nb2c s00\n", backward);
    });
    for_each_two_faults(|system| {
        for backward in [FORWARD, BACKWARD] {
            call_with_lengths_of_the_run(calls, system, b"a3b s00\n", backward);
        }
    });
    refusals_in_order(calls);
    words_buffer_lengths(calls);
    directions(calls);
    log_lengths(calls);
    damaged_records(calls);
    slots_and_digits(calls);
    short_logs(calls);
    every_length(calls);
    results_of_telling_lengths(calls);
    long_logs(calls);
    logs_of_reduce(calls);
    random_logs(calls);
    let refusals = [
        LOG_UNEVEN,
        LOG_RECORD_MALFORMED,
        WORDS_BUFFER_SHORT,
        WORD_TOO_LONG,
        LENGTH_DIFFERS,
    ];
    let count = calls.end(&[DONE], &refusals);
    calls.end_kinds(&kinds_expected());
    count
}

/// How far a log was run before its end or its refusal.
fn how_far(moves: u64) -> &'static str {
    match moves {
        0 => "before any move",
        1..=9 => "after 1 to 9 moves",
        _ => "after 10 moves or more",
    }
}

/// The direction of a call, its outcome, and how far its log was run before.
fn kind_of_call([_, log, backward]: [&[u8]; 3], answer: Answer) -> String {
    let direction = direction(backward);
    let moves = (log.len() / LOG_RECORD) as u64;
    let far = match (answer.number, direction) {
        (0, _) => how_far(moves),
        (WORD_TOO_LONG | LENGTH_DIFFERS, Direction::Forward) => how_far(answer.place - 1),
        (WORD_TOO_LONG | LENGTH_DIFFERS, Direction::Backward) => how_far(moves - answer.place),
        _ => how_far(0),
    };
    match answer.number {
        0 => format!("{direction:?}, done {far}"),
        number => format!("{direction:?}, refused {number} {far}"),
    }
}

/// The kinds of calls that must be among the inputs, each with the fewest that are enough.
fn kinds_expected() -> Vec<(String, u64)> {
    let mut kinds = Vec::new();
    for direction in Direction::BOTH {
        for number in [LOG_UNEVEN, LOG_RECORD_MALFORMED, WORDS_BUFFER_SHORT] {
            let far = how_far(0);
            kinds.push((format!("{direction:?}, refused {number} {far}"), 10_000));
        }
        for (moves, too_long, differs, done) in [
            (0, 10_000, 30_000, 10_000),
            (1, 5_000, 15_000, 30_000),
            (10, 1_000, 5_000, 15_000),
        ] {
            let far = how_far(moves);
            let refused = |number| format!("{direction:?}, refused {number} {far}");
            kinds.push((refused(WORD_TOO_LONG), too_long));
            kinds.push((refused(LENGTH_DIFFERS), differs));
            kinds.push((format!("{direction:?}, done {far}"), done));
        }
    }
    kinds
}

/// Compares calls forward and backward, with room for all words.
fn call_both_ways(calls: &mut Replay, system: &[u8], log: &[u8]) {
    for backward in [FORWARD, BACKWARD] {
        calls.call([system, log, backward], [system.len()]);
    }
}

/// The direction that an input asks for.
fn direction(backward: &[u8]) -> Direction {
    Direction::asked_for_by(backward[0])
}

/// The input that asks for a direction.
fn flag(direction: Direction) -> &'static [u8] {
    match direction {
        Direction::Forward => FORWARD,
        Direction::Backward => BACKWARD,
    }
}

/// Compares a call with the log's lengths put right as far as the moves fit, with room for all words,
/// and gives that log.
fn call_with_lengths_of_the_run(
    calls: &mut Replay,
    system: &[u8],
    log: &[u8],
    backward: &[u8],
) -> Vec<u8> {
    let log = with_lengths_of_the_run(system, log, direction(backward));
    calls.call([system, &log, backward], [system.len()]);
    log
}

/// Ends the program if the last call, for which this is a reason, was refused.
fn must_be_done(calls: &Replay, reason: &str) {
    if calls.answer() != Answer::done() {
        calls.end_with(reason);
    }
}

/// Systems of every length, with sound and with refused logs, with room for all words and for none.
fn system_lengths(calls: &mut Replay) {
    calls.walk_lengths(|calls, system| {
        for log in [
            &b""[..],
            b"a1b s04\n",
            b"a1b h02\n",
            b"a1b s04",
            b"a1a s04\n",
        ] {
            call_both_ways(calls, system, log);
        }
        for backward in [FORWARD, BACKWARD] {
            calls.call([system, b"", backward], [0]);
            calls.call([system, b"a1b s04", backward], [0]);
        }
    });
}

/// Compares calls with several bytes for the direction and words buffers around the length needed.
fn call_with_all_rooms(calls: &mut Replay, system: &[u8], log: &[u8]) {
    for backward in FLAGS {
        calls.call_with_all_rooms([system, log, backward], [system.len()]);
    }
}

/// Logs over the systems with the words b, 63 letters a, a and cB: sound ones, broken ones, and ones whose
/// results are too long or of another length, with several faults at once.
const LOGS_WITH_FAULTS: [&str; 34] = [
    "",
    "a1c s02\n",
    "a1c h01\n",
    "a1c s64\n",
    "a1c s02\nd4a s04\n",
    "a1c s01\nd4a h02\n",
    "a1c s01\nd4a h04\n",
    "a",
    "a1c s02",
    "a1c s02\na",
    "a1c\n",
    "a1a s02\n",
    "a5c s02\n",
    "a1c s02 ",
    "a1c-s02\n",
    "a1c S02\n",
    "a1c s0a\n",
    "a1c s 2\n",
    "e1a s02\n",
    "a1c s02\na1e s03\n",
    "a9c s02\na",
    "b1a s64\n",
    "b1a s63\na",
    "b1a s63\na1a s01\n",
    "a1a s01\nb1a s63\n",
    "a1c s02\nb4a s64\n",
    "a1c s03\nb4a s64\n",
    "a1c s02\nb4a s65\n",
    "b4a s63\na1c s01\n",
    "b4a s64\na1c s02\n",
    "b4c s62\n",
    "b4c s63\n",
    "b1c s63\n",
    "b1c s64\n",
];

/// Faults of the system, the log, the words buffer, the results and the lengths, two and more at once; over
/// the systems that are refused themselves with every other of the logs.
fn refusals_in_order(calls: &mut Replay) {
    let systems = sound_and_refused_systems();
    for log in LOGS_WITH_FAULTS {
        call_with_all_rooms(calls, &systems[0], log.as_bytes());
    }
    for system in &systems[1..] {
        for log in LOGS_WITH_FAULTS.into_iter().step_by(2) {
            call_with_all_rooms(calls, system, log.as_bytes());
        }
    }
}

/// Every length of the words buffer up to a little more than needed, with logs that are run to their end
/// and with one whose last length to be compared is wrong.
fn words_buffer_lengths(calls: &mut Replay) {
    let mut random = Random::new(402);
    for_each_number_of_records(|system| {
        let words = freely_reduced(system);
        for backward in [FORWARD, BACKWARD] {
            let log = random.log(words.words(), 20, direction(backward));
            calls.call_with_every_length([system, &log, backward], [system.len()], 0);
            let last = match direction(backward) {
                Direction::Forward => records_of_log(&log).len().checked_sub(1),
                Direction::Backward => (!log.is_empty()).then_some(0),
            };
            let Some(last) = last else { continue };
            let log = with_length(&log, last, 77);
            calls.call_with_every_length([system, &log, backward], [system.len()], 0);
        }
    });
}

/// Every byte that can ask for a direction, with lengths that are right in one direction alone.
fn directions(calls: &mut Replay) {
    let given = system(&["ab", "c", "aaB"]);
    for log in ["a1b s00\nb3c s00\nc2a h00\n", "b4a s00\n", ""] {
        for direction in Direction::BOTH {
            let log = with_lengths_of_the_run(&given, log.as_bytes(), direction);
            for backward in 0..=255 {
                calls.call([&given, &log, &[backward]], [given.len()]);
            }
        }
    }
}

/// The part of a log of this length that is run first.
fn run_first(log: &[u8], length: usize, direction: Direction) -> &[u8] {
    match direction {
        Direction::Forward => &log[..length],
        Direction::Backward => &log[log.len() - length..],
    }
}

/// Every length of a log from 0 to 100, sound as far as it goes, and of any bytes.
fn log_lengths(calls: &mut Replay) {
    let mut random = Random::new(403);
    let mixed = mixed_system();
    for records in [0, 1, 2, 3, 8, MOST_RECORDS] {
        let given = &mixed[..RECORD * records];
        let words = freely_reduced(given);
        for direction in Direction::BOTH {
            let mut sound = random.log(words.words(), 400, direction);
            if sound.is_empty() {
                sound = b"b3a s00\na1b s00\n".repeat(7);
            }
            for length in 0..=100 {
                let sound = run_first(&sound, length, direction);
                for log in [sound, &any_bytes(&mut random, length)] {
                    calls.call([given, log, flag(direction)], [given.len()]);
                    let too_short = given.len().saturating_sub(1);
                    calls.call([given, log, flag(direction)], [too_short]);
                }
            }
        }
    }
}

/// Every byte of a log changed to every other, and two damaged log records at once.
fn damaged_records(calls: &mut Replay) {
    let log = b"a1b s00\nb2a h00\nb4a s00\na2b h00\n";
    let given = system(&["ab", "c", "", "bbA", "dA"]);
    for records in [0, 1, 2, 5] {
        let given = &given[..RECORD * records];
        for direction in Direction::BOTH {
            let log = with_lengths_of_the_run(given, log, direction);
            for_each_changed_byte(&log, 0..log.len(), &every_byte(), |log| {
                calls.call([given, log, flag(direction)], [given.len()]);
            });
        }
    }
    for direction in Direction::BOTH {
        let log = with_lengths_of_the_run(&given, log, direction);
        for_each_two_changed_bytes(&log, 0..log.len(), &[(b'?', b'.'), (b'1', b'1')], |log| {
            calls.call([&given, log, flag(direction)], [given.len()]);
        });
    }
}

/// Every pair of slot letters around a to p with every digit around 1 to 4, for every system size.
fn slots_and_digits(calls: &mut Replay) {
    let given = system(&["ab"; MOST_RECORDS]);
    let slots: Vec<u8> = (b'`'..=b'r').chain(*b"ABPZz1\n").collect();
    for records in 0..=MOST_RECORDS {
        let given = &given[..RECORD * records];
        for &changed in &slots {
            for &other in &slots {
                for digit in b'/'..=b'6' {
                    let first = [&[changed, digit, other], &b" s00\n"[..]].concat();
                    let log = [&first, &b"a1b s00\n"[..]].concat();
                    let length = LOG_RECORD * (1 + usize::from(digit % 2));
                    call_with_lengths_of_the_run(calls, given, &log[..length], &[digit & 2]);
                }
            }
        }
    }
}

/// Small systems with blank slots, with words of 63 letters and with some that come close to them.
fn systems_of_four() -> [Vec<u8>; 4] {
    let long = "ab".repeat(31) + "c";
    [
        system(&["abc", "", "aA", "ab"]),
        system(&["", "", "", ""]),
        system(&[&long, "c", &long[1..], ""]),
        system(&[&"a".repeat(32), &"A".repeat(31), &long, "b"]),
    ]
}

/// All logs of at most two moves over small systems, with the lengths of the run and with a wrong one.
fn short_logs(calls: &mut Replay) {
    let mut random = Random::new(406);
    let mut moves = vec![Vec::new()];
    moves.extend(
        every_move(4, LONGEST + 1)
            .iter()
            .map(|step| write_log(&[*step])),
    );
    for given in &systems_of_four() {
        for first in &moves {
            for second in &moves {
                let log = [&first[..], second].concat();
                for backward in [FORWARD, BACKWARD] {
                    let log = call_with_lengths_of_the_run(calls, given, &log, backward);
                    let records = records_of_log(&log);
                    if !records.is_empty() {
                        let place = random.below(records.len());
                        let length = wrong_length(&mut random, records[place].length);
                        let log = with_length(&log, place, length);
                        calls.call([given, &log, backward], [given.len()]);
                    }
                }
            }
        }
    }
}

/// Every move over small systems with every length that two digits can tell and with either letter.
fn every_length(calls: &mut Replay) {
    for given in &systems_of_four() {
        for length in 0..100 {
            for step in every_move(4, length) {
                for rule in Rule::BOTH {
                    let log = LogRecord { rule, ..step }.bytes();
                    call_both_ways(calls, given, &log);
                }
            }
        }
    }
}

/// Two words whose product has this many letters after this many pairs have cancelled.
fn factors(random: &mut Random, letters: usize, cancelled: usize) -> Option<(Word, Word)> {
    let fewest = letters.saturating_sub(LONGEST - cancelled);
    let most = letters.min(LONGEST - cancelled);
    if fewest > most {
        return None;
    }
    loop {
        let product = random.reduced_letters(3, letters);
        let middle = random.reduced_letters(3, cancelled);
        let (left, right) = product.split_at(random.between(fewest, most));
        let left_letters = [left, &middle].concat();
        let right_letters = [&inverse_letters(&middle), right].concat();
        let left = Word::freely_reduced(&left_letters);
        let right = Word::freely_reduced(&right_letters);
        if left.len() == left_letters.len() && right.len() == right_letters.len() {
            return Some((left, right));
        }
    }
}

/// Logs of seven moves with one that changes slot a by slot b at each place and at each two places,
/// and harmless ones between. That one tells this length.
fn logs_with(form: Form, length: usize) -> Vec<Vec<u8>> {
    const MOVES: usize = 7;
    let step = Move {
        changed: 0,
        form,
        other: 1,
    };
    let rule = Rule::Shortening;
    let step = LogRecord { step, rule, length }.bytes();
    let mut logs = Vec::new();
    for one in 0..MOVES {
        for two in one..MOVES {
            let record = |place| match place {
                place if place == one || place == two => step,
                place if place % 2 == 0 => *b"c1d h00\n",
                _ => *b"c2d s00\n",
            };
            logs.push((0..MOVES).flat_map(record).collect());
        }
    }
    logs
}

/// Moves whose results have about 63 letters, at each place of a log, in each form and direction. A move
/// that does not fit tells just the length that it comes to, as far as two digits can.
fn results_of_telling_lengths(calls: &mut Replay) {
    let mut random = Random::new(404);
    for form in Form::ALL {
        for letters in [0, 1, 40, 61, 62, 63, 64, 65, 66, 100, 125, 126] {
            for cancelled in [0, 1, 2, 5, 31, 62, 63] {
                let Some((left, right)) = factors(&mut random, letters, cancelled) else {
                    continue;
                };
                let (changed, other) = match form {
                    Form::WordBefore => (right, left),
                    Form::InverseBefore => (right, left.inverse()),
                    Form::WordAfter => (left, right),
                    Form::InverseAfter => (left, right.inverse()),
                };
                let words = [changed.letters(), other.letters(), b"x", b"y"];
                let given = words.map(record).concat();
                for (form, backward) in [
                    (form, FORWARD),
                    (form.undoing(), BACKWARD),
                    (form.undoing(), FLAGS[random.between(2, 3)]),
                ] {
                    for log in logs_with(form, letters.min(99)) {
                        call_with_lengths_of_the_run(calls, &given, &log, backward);
                    }
                }
            }
        }
    }
}

/// Logs of many moves, the last or first of which may lead to a word that is too long or tell a wrong
/// length.
fn long_logs(calls: &mut Replay) {
    let given = system(&["a", "bc", &"ab".repeat(31)]);
    let two_moves = b"a1b s03\na2b h01\n";
    let there_and_back = two_moves.repeat(LONG_LENGTHS[2] / two_moves.len() + 1);
    for length in LONG_LENGTHS {
        for more in [0, 1, LOG_RECORD] {
            call_both_ways(calls, &given, &there_and_back[..length + more]);
        }
        for place in [0, 1, length / LOG_RECORD - 2, length / LOG_RECORD - 1] {
            let log = with_length(&there_and_back[..length], place, 2);
            call_both_ways(calls, &given, &log);
        }
    }
    let there_and_back = &there_and_back[..LONG_LENGTHS[1]];
    let too_long = b"c3b s64\n";
    for log in [
        [there_and_back, too_long].concat(),
        [too_long, there_and_back].concat(),
        [there_and_back, b"c3? s64\n"].concat(),
        [there_and_back, b"c"].concat(),
        [there_and_back, b"b4a s03\n"].concat(),
        [b"b4a s03\n", there_and_back].concat(),
    ] {
        call_both_ways(calls, &given, &log);
        for backward in [FORWARD, BACKWARD] {
            call_with_lengths_of_the_run(calls, &given, &log, backward);
        }
    }
}

/// Compares calls with a log that is run to its end in this direction and holds a move: with its letters
/// exchanged, with wrong lengths at one place and with every byte of that log record damaged.
fn call_with_changes(
    calls: &mut Replay,
    random: &mut Random,
    system: &[u8],
    log: &[u8],
    direction: Direction,
) {
    let backward = flag(direction);
    let records = records_of_log(log);
    let chosen = random.below(records.len());
    for log in [
        with_letters_exchanged(log, |_| true),
        with_letters_exchanged(log, |place| place == chosen),
    ] {
        calls.call([system, &log, backward], [system.len()]);
        must_be_done(calls, "a letter of a rule is looked at");
    }
    for length in wrong_lengths(records[chosen].length) {
        let log = with_length(log, chosen, length);
        calls.call([system, &log, backward], [system.len()]);
        let differs = Refusal::new(LENGTH_DIFFERS, chosen + 1);
        if calls.answer() != Answer::refused(differs) {
            calls.end_with("a wrong length is not found at its own move");
        }
    }
    for_each_damaged_byte(random, log, chosen, |log| {
        calls.call([system, log, backward], [system.len()]);
    });
}

/// The logs that reduce writes, which are never refused over the given system forward nor over the
/// reduced one backward, and with changes.
fn logs_of_reduce(calls: &mut Replay) {
    let mut random = Random::new(407);
    for generators in GENERATORS {
        for round in 0..300 {
            let given = random.system_to_reduce(generators);
            let Reduction { words, log, .. } = reduction(&given);
            for (system, direction) in [(&given, Direction::Forward), (&words, Direction::Backward)]
            {
                call_with_all_rooms(calls, system, &log);
                calls.call([system, &log, flag(direction)], [system.len()]);
                must_be_done(calls, "a log that reduce wrote is refused");
                if !log.is_empty() && round % 3 == 0 {
                    call_with_changes(calls, &mut random, system, &log, direction);
                }
            }
        }
    }
}

/// A log for the words: any moves, moves that fit, or those of reduce, with the lengths of a run in this
/// direction as far as the moves fit.
fn any_log(random: &mut Random, given: &[u8], direction: Direction) -> Vec<u8> {
    let words = freely_reduced(given);
    let moves = [3, 12, 60][random.below(3)];
    let moves = random.below(moves);
    let log = match random.below(4) {
        0 if words.count() > 1 => random.any_log(words.count(), moves),
        1 => reduction(given).log,
        _ => return random.log(words.words(), moves, direction),
    };
    with_lengths_of_the_run(given, &log, direction)
}

/// Random systems with logs that fit and logs that may not, both ways, each also run back where it was
/// run to its end, with other lengths and moves, and damaged.
fn random_logs(calls: &mut Replay) {
    let mut random = Random::new(405);
    for generators in GENERATORS {
        for round in 0..10_000 {
            let given = match round % 2 {
                0 => random.system_to_reduce(generators),
                _ => random_system(&mut random, generators),
            };
            for direction in Direction::BOTH {
                let log = any_log(&mut random, &given, direction);
                let room = any_room(&mut random, given.len());
                calls.call([&given, &log, flag(direction)], [room]);
                if log.is_empty() {
                    continue;
                }
                if calls.answer() == Answer::done() {
                    let after = calls.left_in(0)[..given.len()].to_vec();
                    calls.call([&after, &log, flag(direction.turned())], [after.len()]);
                    must_be_done(calls, "a log is not run back");
                    if round % 100 == 0 {
                        call_with_changes(calls, &mut random, &given, &log, direction);
                    }
                }
                let slots = given.len() / RECORD;
                for log in [
                    with_other_lengths_or_moves(&mut random, &log, slots),
                    damaged(&mut random, &log),
                ] {
                    calls.call([&given, &log, flag(direction)], [given.len()]);
                }
            }
        }
    }
}
