//! Times replay, forward and backward, of the logs that reduce makes and of longer random logs.
//! Every log is sound, with the lengths of its run, and every result fits.

use crate::entries::REPLAY;
use crate::timing::{line, time};
use subgroups_reference::logs::LOG_RECORD;
use subgroups_reference::measured::Measured;
use subgroups_reference::random::{Kind, Random};
use subgroups_reference::records::{freely_reduced, MOST_RECORDS, RECORD};
use subgroups_reference::reduction::reduction;
use subgroups_reference::words::LONGEST;
use subgroups_reference::{replay, Answer, Direction};

const SYSTEMS: usize = 64;

/// A system and a log, with the system after it.
struct Run {
    before: Vec<u8>,
    log: Vec<u8>,
    after: Vec<u8>,
}

/// Times all kinds of logs.
pub fn bench() {
    let mut random = Random::new(311);
    compare("no move", &random_runs(&mut random, 0, 63));
    compare("about 10 moves", &random_runs(&mut random, 12, 20));
    let many = random_runs(&mut random, 1_000, 20);
    let moves: usize = many.iter().map(|run| run.log.len() / LOG_RECORD).sum();
    compare(&format!("{} moves", moves / SYSTEMS), &many);
    compare("the log of reduce", &reduced_runs());
}

/// Times replay of these logs in both directions, after a look that each is run to its end.
fn compare(name: &str, runs: &[Run]) {
    runs.iter().for_each(check);
    let forward = |run: &Run| [run.before.clone(), run.log.clone(), vec![0]];
    let backward = |run: &Run| [run.after.clone(), run.log.clone(), vec![1]];
    let forward: Vec<[Vec<u8>; 3]> = runs.iter().map(forward).collect();
    let backward: Vec<[Vec<u8>; 3]> = runs.iter().map(backward).collect();
    for (direction, inputs) in [("forward", forward), ("backward", backward)] {
        let times = time(REPLAY, &inputs, [RECORD * MOST_RECORDS]);
        line(&format!("replay, 16 words, {name}, {direction}"), times);
    }
}

/// Checks that a log leads from the system before it to the one after it, and back.
fn check(run: &Run) {
    let mut words = vec![0; run.before.len()];
    let answer = replay(&run.before, &run.log, Direction::Forward, &mut words);
    assert_eq!((answer, &words), (Answer::done(), &run.after));
    let answer = replay(&run.after, &run.log, Direction::Backward, &mut words);
    assert_eq!(answer, Answer::done());
}

/// Random systems of 16 words with logs of random moves, those left out that do not fit.
fn random_runs(random: &mut Random, moves: usize, longest: usize) -> Vec<Run> {
    (0..SYSTEMS)
        .map(|_| {
            let before = random.system(Kind::Reduced, 3, MOST_RECORDS, longest / 2, longest);
            let log = random.log(freely_reduced(&before).words(), moves, Direction::Forward);
            let mut after = vec![0; before.len()];
            replay(&before, &log, Direction::Forward, &mut after);
            Run { before, log, after }
        })
        .collect()
}

/// Dependent systems of 16 words with the logs that reduce makes of them.
fn reduced_runs() -> Vec<Run> {
    let kind = Measured {
        generators: 3,
        records: MOST_RECORDS,
        shortest: 5,
        longest: LONGEST,
        independent: false,
    };
    let run = |before: Vec<u8>| {
        let reduction = reduction(&before);
        Run {
            before,
            log: reduction.log,
            after: reduction.words,
        }
    };
    kind.systems(SYSTEMS).into_iter().map(run).collect()
}
