//! Tests of the calls against each other on random systems: reduce against test and replay, member
//! against reduce and ask, the two decisions on membership, and the product against multiply.

use crate::answers::{Answer, DONE, MEMBER, NOT_A_MEMBER};
use crate::decision::{check_ask, check_member};
use crate::graph::Graph;
use crate::logs::{read_log, write_log};
use crate::made_logs::with_lengths_of_the_run;
use crate::random::{Kind, Random};
use crate::records::{freely_reduced, record, RECORD};
use crate::reduction::{first_shortening, next_move, reduction, Reduction};
use crate::refusals::{Refusal, LENGTH_DIFFERS, SYSTEM_NOT_REDUCED, WORD_TOO_LONG};
use crate::words::Word;
use crate::{ask, member, replay, test, tidy, Direction};

const FILL: u8 = 0xEE;

/// A random system of one of many kinds, with its number of generators.
fn random_system(random: &mut Random) -> (Vec<u8>, usize) {
    let generators = [1, 2, 3, 5, 26][random.below(5)];
    (random.system_to_reduce(generators), generators)
}

/// A system after tidy.
fn tidied(system: &[u8]) -> Vec<u8> {
    let mut words = vec![FILL; system.len()];
    assert_eq!(tidy(system, &mut words), Answer::done());
    words
}

/// A system after replay.
fn replayed(system: &[u8], log: &[u8], direction: Direction) -> Vec<u8> {
    let mut words = vec![FILL; system.len()];
    assert_eq!(replay(system, log, direction, &mut words), Answer::done());
    words
}

/// Reduce yields a reduced system of the right rank, and its log leads there and back.
#[test]
fn reduce_against_test_and_replay() {
    let mut random = Random::new(11);
    for _ in 0..3000 {
        let (given, _) = random_system(&mut random);
        let Reduction { answer, words, log } = reduction(&given);
        assert_eq!(answer.verdict, DONE);
        assert_eq!(test(&words).reduced, 1);
        assert_eq!(test(&given).reduced, u64::from(answer.moves == 0));
        assert_eq!(replayed(&given, &log, Direction::Forward), words);
        assert_eq!(replayed(&words, &log, Direction::Backward), tidied(&given));
        let words_given = freely_reduced(&given);
        let rank = Graph::folded(words_given.words()).rank();
        assert_eq!(answer.rank, rank as u64);
        let independent = rank == words_given.count();
        assert_eq!(answer.independent, u64::from(independent));
    }
}

/// A target for the system: a product, a product with one letter changed, or any word.
fn random_target(random: &mut Random, words: &[Word], generators: usize) -> Vec<u8> {
    let factors = random.below(40);
    match random.below(4) {
        0 => {
            let length = random.below(64);
            random.cancelling_letters(generators, length)
        }
        1 => {
            let product = random.product(words, factors);
            let changed = random.one_letter_changed(&product, generators);
            changed.letters().to_vec()
        }
        _ => random.product(words, factors).letters().to_vec(),
    }
}

/// Member does what reduce does, both decisions on membership agree, and the product multiplies out
/// to the target.
#[test]
fn member_against_reduce_graph_and_multiply() {
    let mut random = Random::new(12);
    let mut counts = [0; 2];
    for _ in 0..2000 {
        let (given, generators) = random_system(&mut random);
        let words_given = freely_reduced(&given);
        let reduction = reduction(&given);
        for _ in 0..6 {
            let target = record(random_target(&mut random, words_given.words(), generators));
            let mut words = vec![FILL; given.len()];
            let mut log = vec![FILL; reduction.log.len()];
            let mut product = [FILL; 64];
            let answer = member(&given, &target, &mut words, &mut log, &mut product);
            assert_eq!((&words, &log), (&reduction.words, &reduction.log));
            let verdict = answer.verdict;
            let expected = Answer {
                verdict,
                ..reduction.answer
            };
            assert_eq!(answer, expected);
            let checked = check_member([&given, &target], [&words, &log, &product], answer);
            assert_eq!(checked, Ok(()));
            counts[usize::from(verdict == MEMBER)] += 1;
            assert!(verdict == MEMBER || (verdict, product) == (NOT_A_MEMBER, [FILL; 64]));
        }
    }
    assert!(counts[0] > 2000 && counts[1] > 2000, "{counts:?}");
}

/// The answer of a call that gives a verdict alone.
fn verdict_alone(verdict: u64) -> Answer {
    Answer {
        verdict,
        ..Answer::default()
    }
}

/// Member gives what reduce and ask in turn give, however the reduced words are spelled.
#[test]
fn member_against_reduce_and_ask_in_turn() {
    let mut random = Random::new(14);
    for _ in 0..500 {
        let (given, generators) = random_system(&mut random);
        let words_given = freely_reduced(&given);
        let reduction = reduction(&given);
        let reduced = freely_reduced(&reduction.words);
        for _ in 0..3 {
            let target = record(random_target(&mut random, words_given.words(), generators));
            let mut words = vec![FILL; given.len()];
            let mut log = vec![FILL; reduction.log.len()];
            let mut product = [FILL; RECORD + 1];
            let answer = member(&given, &target, &mut words, &mut log, &mut product);
            let spelled = random.unreduced_system(reduced.words(), generators);
            for system in [&reduction.words, &spelled] {
                let mut asked = [FILL; RECORD + 1];
                let asked_answer = ask(system, &target, &mut asked);
                assert_eq!(asked_answer, verdict_alone(answer.verdict));
                assert_eq!(asked, product);
                let checked = check_ask([system, &target], [&asked], asked_answer);
                assert_eq!(checked, Ok(()));
            }
        }
    }
}

/// Ask refuses a well-formed system just where test finds it not reduced.
#[test]
fn ask_against_test() {
    let mut random = Random::new(15);
    let mut counts = [0; 2];
    for _ in 0..1000 {
        let (given, generators) = random_system(&mut random);
        let target = record(random_target(&mut random, &[], generators));
        let mut product = [FILL; RECORD];
        let answer = ask(&given, &target, &mut product);
        let reduced = test(&given).reduced == 1;
        counts[usize::from(reduced)] += 1;
        if reduced {
            assert_eq!(answer, verdict_alone(answer.verdict));
            assert!([MEMBER, NOT_A_MEMBER].contains(&answer.verdict));
        } else {
            let not_reduced = Answer::refused(Refusal::new(SYSTEM_NOT_REDUCED, 0));
            assert_eq!((answer, product), (not_reduced, [FILL; RECORD]));
        }
    }
    assert!(counts[0] > 200 && counts[1] > 200, "{counts:?}");
}

/// The log of reduce tells for each move whether anything shortened and how long the changed word is.
#[test]
fn what_the_log_of_reduce_tells() {
    let mut random = Random::new(61);
    let (mut shortenings, mut half_ends) = (0, 0);
    for _ in 0..1000 {
        let (given, _) = random_system(&mut random);
        let mut system = freely_reduced(&given);
        let words = system.words_mut();
        let log = String::from_utf8(reduction(&given).log).expect("a log is text");
        for line in log.lines() {
            let shortens = first_shortening(words).is_some();
            let step = next_move(words).expect("the log tells of a move").1;
            assert!(step.make(words));
            let length = words[step.changed].len();
            let letter = if shortens { 's' } else { 'h' };
            assert_eq!(line[3..], format!(" {letter}{length:02}"));
            match shortens {
                true => shortenings += 1,
                false => half_ends += 1,
            }
        }
        assert_eq!(next_move(words), None);
    }
    assert!(
        shortenings > 2000 && half_ends > 500,
        "{shortenings} {half_ends}"
    );
}

/// Anybody's log, run forward and then backward, leads back to the freely reduced words.
#[test]
fn replay_there_and_back() {
    let mut random = Random::new(13);
    let mut done = 0;
    for _ in 0..4000 {
        let records = random.between(2, 16);
        let generators = random.between(1, 3);
        let given = random.system(Kind::Uniform, generators, records, 0, 10);
        let fitting = random.log(freely_reduced(&given).words(), 30, Direction::Forward);
        let after = replayed(&given, &fitting, Direction::Forward);
        let back = replayed(&after, &fitting, Direction::Backward);
        assert_eq!(back, tidied(&given));
        let moves = random.below(12);
        let log = random.any_log(records, moves);
        for direction in Direction::BOTH {
            let log = with_lengths_of_the_run(&given, &log, direction);
            let mut after = vec![FILL; given.len()];
            let answer = replay(&given, &log, direction, &mut after);
            if answer == Answer::done() {
                done += 1;
                assert_eq!(replayed(&after, &log, direction.turned()), tidied(&given));
            } else {
                assert_eq!(answer.number, WORD_TOO_LONG);
            }
        }
    }
    assert!(done > 4000, "{done}");
}

/// One length made wrong in a log that runs to its end is found at its own move, in both directions.
#[test]
fn one_wrong_length() {
    let mut random = Random::new(62);
    let mut refused = 0;
    for _ in 0..3000 {
        let records = random.between(2, 16);
        let generators = random.between(1, 3);
        let given = random.system(Kind::Uniform, generators, records, 0, 20);
        for direction in Direction::BOTH {
            let log = random.log(freely_reduced(&given).words(), 30, direction);
            let mut told = read_log(&log, records).expect("the log is sound");
            if told.is_empty() {
                continue;
            }
            let place = random.below(told.len());
            told[place].length = (told[place].length + random.between(1, 99)) % 100;
            let mut words = vec![FILL; given.len()];
            let answer = replay(&given, &write_log(&told), direction, &mut words);
            let expected = Refusal::new(LENGTH_DIFFERS, place + 1);
            assert_eq!(answer, Answer::refused(expected));
            assert_eq!(words, vec![FILL; given.len()]);
            refused += 1;
        }
    }
    assert!(refused > 5000, "{refused}");
}
