//! Times member with one target for each system, and with thirty targets against one system, where
//! the time is that of all thirty. Targets are by turns members and words that differ from a member
//! in one letter.

use crate::entries::{Entry, MEMBER};
use crate::timing::{line, time};
use subgroups_reference::logs::LOG_RECORD;
use subgroups_reference::measured::Measured;
use subgroups_reference::program::MOVES_IN_LOG;
use subgroups_reference::quick_search;
use subgroups_reference::records::{record, MOST_RECORDS, RECORD};
use subgroups_reference::words::{Word, LONGEST};

const SYSTEMS: usize = 100;

/// How many targets are asked about for one system.
pub const TARGETS: usize = 30;

/// The lengths of the buffers that are lent: the log is that of the program.
pub const LENGTHS: [usize; 3] = [RECORD * MOST_RECORDS, LOG_RECORD * MOVES_IN_LOG, RECORD];

/// Member, by the quick search on the Rust side.
const QUICK_MEMBER: Entry<2, 3> = Entry {
    rust: quick_search::member,
    ..MEMBER
};

/// Times systems of several kinds.
pub fn bench() {
    for kind in kinds() {
        compare(&kind);
    }
}

/// The kinds of systems that are asked about.
pub fn kinds() -> Vec<Measured> {
    let mut kinds = Vec::new();
    for (records, longest) in [(4, LONGEST), (12, 30), (16, LONGEST)] {
        for independent in [true, false] {
            kinds.push(Measured {
                generators: 3,
                records,
                shortest: 5,
                longest,
                independent,
            });
        }
    }
    kinds
}

/// The name of one of these kinds.
pub fn name(kind: &Measured) -> String {
    let dependence = kind.dependence();
    let (records, longest) = (kind.records, kind.longest);
    format!("{records} words of 5-{longest} letters, {dependence}")
}

/// Times systems of one kind with one target and with thirty.
fn compare(kind: &Measured) {
    let name = format!("member, {}", name(kind));
    let systems = kind.systems(SYSTEMS);
    let numbered = systems.iter().enumerate();
    let one = numbered.map(|(number, system)| inputs(kind, system, 2).swap_remove(1 - number % 2));
    let one: Vec<[Vec<u8>; 2]> = one.collect();
    line(
        &format!("{name}, 1 target"),
        time(QUICK_MEMBER, &one, LENGTHS),
    );
    let systems = &systems[..SYSTEMS / 10];
    let thirty = systems
        .iter()
        .flat_map(|system| inputs(kind, system, TARGETS));
    let thirty: Vec<[Vec<u8>; 2]> = thirty.collect();
    let times = time(QUICK_MEMBER, &thirty, LENGTHS).of_calls(TARGETS);
    line(&format!("{name}, 30 targets"), times);
}

/// A system with each of its first targets.
pub fn inputs(kind: &Measured, system: &[u8], targets: usize) -> Vec<[Vec<u8>; 2]> {
    let targets = kind.targets(system, targets).into_iter();
    let input = |target: Word| [system.to_vec(), record(target.letters()).to_vec()];
    targets.map(input).collect()
}
