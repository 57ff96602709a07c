//! Times reduce on systems of 4, 8, 12 and 16 words over 2, 3 and 5 generators, independent and
//! dependent, on systems rich in half-end moves, and on those that are measured with GAP too.
//! The last line gives the total over all systems.

use crate::entries::{Entry, REDUCE};
use crate::timing::{line, time, Times};
use subgroups_reference::logs::LOG_RECORD;
use subgroups_reference::measured::Measured;
use subgroups_reference::program::MOVES_IN_LOG;
use subgroups_reference::quick_search;
use subgroups_reference::random::Random;
use subgroups_reference::records::{MOST_RECORDS, RECORD};
use subgroups_reference::reduction::reduction;
use subgroups_reference::words::LONGEST;

const SYSTEMS: usize = 200;

/// Reduce, by the quick search on the Rust side.
const QUICK_REDUCE: Entry<1, 2> = Entry {
    rust: quick_search::reduce,
    ..REDUCE
};

/// Times all kinds of systems.
pub fn bench() {
    let mut total = Times {
        proved: 0.0,
        rust: 0.0,
    };
    for generators in [2, 3, 5] {
        for records in [4, 8, 12, 16] {
            for independent in [true, false] {
                let kind = Measured {
                    generators,
                    records,
                    shortest: 5,
                    longest: LONGEST,
                    independent,
                };
                compare(&kind.name(), kind.systems(SYSTEMS), &mut total);
            }
        }
    }
    for generators in [2, 3, 5] {
        let mut random = Random::new(331);
        let systems = (0..SYSTEMS)
            .map(|_| random.system_of_shared_halves(generators, MOST_RECORDS, LONGEST / 2))
            .collect();
        let name = format!("16 words, {generators} generators, shared halves");
        compare(&name, systems, &mut total);
    }
    for independent in [true, false] {
        let kind = Measured::for_gap(independent);
        let name = format!("GAP's {}", kind.name());
        compare(&name, kind.systems(SYSTEMS), &mut total);
    }
    line("reduce, all these systems once", total);
}

/// Times reduce on these systems and adds the time of all to the total.
fn compare(name: &str, systems: Vec<Vec<u8>>, total: &mut Times) {
    let inputs: Vec<[Vec<u8>; 1]> = systems.into_iter().map(|system| [system]).collect();
    let moves = inputs.iter().map(|[system]| reduction(system).answer.moves);
    let moves = moves.sum::<u64>() as f64 / inputs.len() as f64;
    let lengths = [RECORD * MOST_RECORDS, LOG_RECORD * MOVES_IN_LOG];
    let times = time(QUICK_REDUCE, &inputs, lengths);
    line(&format!("reduce, {name} ({moves:.0} moves)"), times);
    let of_all = times.of_calls(inputs.len());
    total.proved += of_all.proved;
    total.rust += of_all.rust;
}
