//! The numbers of moves that an entry made, held against the bound on them, with the runs that had
//! the most moves or came nearest to their bound.

use crate::entries::Numbers;
use subgroups_reference::answers::REFUSED;
use subgroups_reference::bound::{longest_log, most_moves_of, records_and_letters};
use subgroups_reference::logs::LOG_RECORD;
use subgroups_reference::refusals::LOG_BUFFER_SHORT;

/// The place of the log among the buffers of an entry that makes moves.
pub const LOG: usize = 1;

/// How many of the runs with the most moves are kept.
const KEPT: usize = 8;

/// A system that was reduced, the number of its moves, and the bound on them.
struct Run {
    moves: u64,
    bound: u64,
    system: Vec<u8>,
}

/// What was seen of the numbers of moves.
#[derive(Default)]
pub struct MoveCounts {
    /// The runs of different systems with the most moves, the most first.
    longest: Vec<Run>,
    /// The run with the largest share of its bound.
    nearest: Option<Run>,
    /// How many logs of runs with moves had room for just as many as the bound of the system.
    logs_by_the_bound: u64,
    /// How many logs of runs with moves had room for just as many as the bound of the largest system.
    longest_logs: u64,
}

impl Run {
    /// The run of a system.
    fn new(moves: u64, bound: u64, system: &[u8]) -> Run {
        Run {
            moves,
            bound,
            system: system.to_vec(),
        }
    }

    /// The number of moves and the bound, with the size of the system.
    fn told(&self) -> String {
        let Run { moves, bound, .. } = self;
        let (records, letters) = records_and_letters(&self.system);
        format!("{moves} of {bound} ({records} records, {letters} letters)")
    }
}

impl MoveCounts {
    /// Holds the library's answer to a call with a log of this length against the bound: there are no
    /// more moves, and a log with room for so many is not refused as too short.
    pub fn hold(
        &mut self,
        system: &[u8],
        log: usize,
        [verdict, number, _, moves, ..]: Numbers,
    ) -> Result<(), &'static str> {
        let is_short = number == LOG_BUFFER_SHORT;
        if verdict == REFUSED && !is_short {
            return Ok(());
        }
        let bound = most_moves_of(system);
        if is_short && log >= LOG_RECORD * bound {
            return Err("a log with room for as many moves as the bound is too short");
        }
        if moves > bound as u64 {
            return Err("there are more moves than the bound");
        }
        if moves > 0 {
            self.logs_by_the_bound += u64::from(log == LOG_RECORD * bound);
            self.longest_logs += u64::from(log == longest_log());
            self.keep(moves, bound as u64, system);
        }
        Ok(())
    }

    /// Keeps a run with moves if it is among the longest, or comes nearer to its bound than all before.
    fn keep(&mut self, moves: u64, bound: u64, system: &[u8]) {
        let is_nearer = |nearest: &Run| moves * nearest.bound > nearest.moves * bound;
        if self.nearest.as_ref().is_none_or(is_nearer) {
            self.nearest = Some(Run::new(moves, bound, system));
        }
        let place = self.longest.partition_point(|run| run.moves >= moves);
        if place < KEPT && self.longest.iter().all(|run| run.system != system) {
            self.longest.insert(place, Run::new(moves, bound, system));
            self.longest.truncate(KEPT);
        }
    }

    /// The systems with the most moves.
    pub fn systems_with_most_moves(&self) -> Vec<Vec<u8>> {
        let systems = self.longest.iter().map(|run| run.system.clone());
        systems.collect()
    }

    /// Says how near the moves of an entry came to their bound, and how many logs were long enough by it,
    /// after a look that there were many moves and many such logs.
    pub fn end(&self, name: &str) {
        let nearest = self.nearest.as_ref().expect("moves were made");
        let longest = self.longest.first().expect("moves were made");
        assert_eq!(
            [longest.moves, nearest.moves, nearest.bound],
            [1_681, 63, 324],
            "{name}: the header and docs/DECISIONS.md say other numbers"
        );
        println!(
            "{name}: at most {}% of the bound on moves, {}; the most moves {}",
            100 * nearest.moves / nearest.bound,
            nearest.told(),
            longest.told()
        );
        let logs = self.logs_by_the_bound;
        assert!(logs > 3_000, "{name}: only {logs} logs by the bound");
        let longest_logs = self.longest_logs;
        assert!(
            longest_logs > 30,
            "{name}: only {longest_logs} longest logs"
        );
        println!("{name}: {logs} logs as long as the bound and {longest_logs} of the longest length are long enough");
    }
}
