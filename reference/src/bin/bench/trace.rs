//! Times trace, by the plain folded graph on the Rust side, on systems with little and with much to fold and
//! on those that are measured with GAP too. Each system has a member and a word that differs from a member
//! in one letter as targets; every call folds the graph anew, so thirty targets take thirty times as long.

use crate::entries::{EDGE, TRACE};
use crate::member::{inputs, name, TARGETS};
use crate::timing::{line, time, Times};
use subgroups_reference::measured::Measured;
use subgroups_reference::random::Random;
use subgroups_reference::records::MOST_RECORDS;
use subgroups_reference::tracing::MOST_EDGES;
use subgroups_reference::words::LONGEST;

/// How many systems of each kind are traced.
const SYSTEMS: usize = 20;

/// How many systems are measured with GAP too.
const SYSTEMS_FOR_GAP: usize = 200;

/// The words of 16 records that are as long as they may be, over two generators.
const LONGEST_WORDS: Measured = Measured {
    generators: 2,
    records: MOST_RECORDS,
    shortest: LONGEST,
    longest: LONGEST,
    independent: true,
};

/// Few and short words.
const FEW_WORDS: Measured = Measured {
    generators: 3,
    records: 3,
    shortest: 2,
    longest: 4,
    independent: true,
};

/// Times systems of several kinds, and those that are measured with GAP too.
pub fn bench() {
    let twelve = Measured::for_gap(true);
    compare("12 words of 5-30 letters", &twelve, true);
    compare("16 words of 63 letters", &LONGEST_WORDS, true);
    compare("3 words of 2-4 letters", &FEW_WORDS, false);
    for independent in [true, false] {
        let kind = Measured::for_gap(independent);
        let times = times(&kind, kind.systems(SYSTEMS_FOR_GAP));
        let name = format!("trace, GAP's {}", name(&kind));
        line(&format!("{name}, 1 target"), times);
        let times = times.of_calls(TARGETS);
        line(&format!("{name}, {TARGETS} targets"), times);
    }
}

/// Times systems of one kind, and such with common beginnings if they are asked for.
fn compare(name: &str, kind: &Measured, common_beginnings: bool) {
    let name = format!("trace, {name}");
    line(&name, times(kind, kind.systems(SYSTEMS)));
    if common_beginnings {
        let systems = with_common_beginnings(kind);
        line(&format!("{name}, common beginnings"), times(kind, systems));
    }
}

/// Systems of words as in this kind, each of which begins as one and the same long word does.
fn with_common_beginnings(kind: &Measured) -> Vec<Vec<u8>> {
    let mut random = Random::new(361);
    let (shortest, longest) = (kind.shortest, kind.longest);
    let system =
        || random.system_of_common_beginnings(kind.generators, kind.records, shortest, longest);
    std::iter::repeat_with(system).take(SYSTEMS).collect()
}

/// The times of one call on these systems, each with two targets.
fn times(kind: &Measured, systems: Vec<Vec<u8>>) -> Times {
    let inputs = systems.iter().flat_map(|system| inputs(kind, system, 2));
    let inputs: Vec<[Vec<u8>; 2]> = inputs.collect();
    time(TRACE, &inputs, [EDGE * MOST_EDGES])
}
