//! Times thirty targets against one system by one reduce and thirty asks of the reduced words, and
//! beside it by thirty calls of member. Then times one question to a reduced system in parts.

use crate::entries::{Entry, Numbers, ASK, MEMBER, REDUCE};
use crate::member::{inputs, kinds, name, LENGTHS, TARGETS};
use crate::timing::{line, proved_side, rust_side, shortest_times, time};
use std::hint::black_box;
use subgroups_reference::measured::Measured;
use subgroups_reference::quick_search;
use subgroups_reference::records::{record, RECORD};
use subgroups_reference::reduction::reduction;

/// How many systems of each kind are asked about.
const SYSTEMS: usize = 10;

/// How many systems are measured with GAP too.
const SYSTEMS_FOR_GAP: usize = 200;

/// Ask, by the quick search on the Rust side.
const QUICK_ASK: Entry<2, 1> = Entry {
    rust: quick_search::ask,
    ..ASK
};

/// Reduce, then ask of the reduced words for each of the targets that stand one after the other in the
/// second input.
const IN_TURN: Entry<2, 3> = Entry {
    proved: |[system, targets], [words, log, product], answer| {
        (REDUCE.proved)([system], [&mut *words, log], answer);
        for target in targets.chunks_exact(RECORD) {
            let inputs = [&words[..system.len()], target];
            (ASK.proved)(inputs, [&mut *product], answer);
        }
    },
    rust: |[system, targets], [words, log, product]| {
        let mut answer = quick_search::reduce([system], [&mut *words, log]);
        for target in targets.chunks_exact(RECORD) {
            let inputs = [&words[..system.len()], target];
            answer = black_box(quick_search::ask(inputs, [&mut *product]));
        }
        answer
    },
};

/// Member of the proved library for each of the targets that stand one after the other in the second
/// input.
fn members(
    [system, targets]: [&[u8]; 2],
    [words, log, product]: [&mut [u8]; 3],
    answer: &mut Numbers,
) {
    for target in targets.chunks_exact(RECORD) {
        let buffers = [&mut *words, &mut *log, &mut *product];
        (MEMBER.proved)([system, target], buffers, answer);
    }
}

/// Times systems of several kinds, those that are measured with GAP too, and the parts of a question.
pub fn bench() {
    println!(
        "{:<63} {:>11} {:>11} {:>6} {:>11} {:>6}",
        "30 targets by one reduce and 30 asks, and by 30 members",
        "proved",
        "Rust",
        "ratio",
        "members",
        "ratio"
    );
    for kind in kinds() {
        let systems = systems_with_moves(&kind);
        compare(&format!("ask, {}, 30 targets", name(&kind)), &kind, systems);
    }
    for independent in [true, false] {
        let kind = Measured::for_gap(independent);
        let name = format!("ask, GAP's {}, 30 targets", name(&kind));
        compare(&name, &kind, kind.systems(SYSTEMS_FOR_GAP));
    }
    for kind in kinds().iter().filter(|kind| kind.records >= 12) {
        parts(kind);
    }
}

/// The first systems of a kind that are not reduced yet.
fn systems_with_moves(kind: &Measured) -> Vec<Vec<u8>> {
    let mut systems = kind.systems(10 * SYSTEMS);
    systems.retain(|system| reduction(system).answer.moves > 0);
    systems.truncate(SYSTEMS);
    systems
}

/// Times thirty targets for each of these systems by reduce and ask, and by member.
fn compare(name: &str, kind: &Measured, systems: Vec<Vec<u8>>) {
    let input = |system: Vec<u8>| {
        let targets = kind.targets(&system, TARGETS).into_iter();
        let targets = targets.flat_map(|target| record(target.letters()));
        [system, targets.collect()]
    };
    let inputs: Vec<[Vec<u8>; 2]> = systems.into_iter().map(input).collect();
    let [proved, rust, members] = shortest_times(
        &inputs,
        [
            &mut proved_side(IN_TURN.proved, LENGTHS),
            &mut rust_side(IN_TURN.rust, LENGTHS),
            &mut proved_side(members, LENGTHS),
        ],
    );
    let (ratio, of_members) = (proved / rust, proved / members);
    println!(
        "{name:<63} {proved:>11.3} {rust:>11.3} {ratio:>6.2} {members:>11.3} {of_members:>6.2}"
    );
}

/// A system with one of its words in its first two slots, where the first pair of slots shortens.
fn with_twins(system: &[u8]) -> Vec<u8> {
    let mut records = system.chunks_exact(RECORD);
    let twin = records.find(|record| record[0].is_ascii_alphabetic());
    let twin = twin.expect("a word that is not empty");
    [twin, twin, &system[2 * RECORD..]].concat()
}

/// Times a question to reduced systems as far as it goes before each of its ends: a target of no bytes
/// is refused once the records are checked, a system whose first pair shortens once its words are
/// freely reduced, a product buffer that is too short once they are found reduced, and a whole
/// question factors the target.
fn parts(kind: &Measured) {
    let systems = systems_with_moves(kind);
    let reduced = systems.iter().map(|system| reduction(system).words);
    let asked = reduced.flat_map(|words| inputs(kind, &words, TARGETS));
    let asked: Vec<[Vec<u8>; 2]> = asked.collect();
    let each = |change: fn(&[Vec<u8>; 2]) -> [Vec<u8>; 2]| -> Vec<[Vec<u8>; 2]> {
        asked.iter().map(change).collect()
    };
    let no_target = each(|[words, _]| [words.clone(), Vec::new()]);
    let twins = each(|[words, target]| [with_twins(words), target.clone()]);
    for (part, inputs, room) in [
        ("records checked", &no_target, RECORD),
        ("and freely reduced", &twins, RECORD),
        ("and found reduced", &asked, RECORD - 1),
        ("and factored", &asked, RECORD),
    ] {
        let name = format!("ask, {}, {part}", name(kind));
        line(&name, time(QUICK_ASK, inputs, [room]));
    }
}
