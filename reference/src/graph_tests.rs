//! Tests of trace and of its folded graph: the sheets, every refusal with its place and their order, the
//! graph against one that is folded two edges after the other, and the verdicts against those of member,
//! of powers by their exponents, and of actions on points.

use crate::answers::{Answer, MEMBER, NOT_A_MEMBER};
use crate::graph::Graph;
use crate::graph_sheets::GRAPH_SHEETS;
use crate::random::{Kind, Random};
use crate::records::{freely_reduced, read_system_as_given, record, system, MOST_RECORDS, RECORD};
use crate::reduction::reduction;
use crate::refusals::*;
use crate::sheets::{Asked, Target, ASK_SHEETS, SHEETS};
use crate::small;
use crate::tracing::MOST_EDGES;
use crate::words::{Word, LONGEST};
use crate::{member, trace, Edge};

/// What the edges of a table hold before a call.
const FILL: Edge = Edge {
    from: 0xEEEE,
    letter: 0xEEEE,
    to: 0xEEEE,
};

/// The answer of a refusal.
fn refused(number: u64, place: usize) -> Answer {
    Answer::refused(Refusal::new(number, place))
}

/// The answer that says whether a target is a member, and nothing else.
fn verdict(is_member: bool) -> Answer {
    Answer {
        verdict: if is_member { MEMBER } else { NOT_A_MEMBER },
        ..Answer::default()
    }
}

/// What trace answers with just enough edges.
fn traced(given: &[u8], target: &[u8]) -> Answer {
    trace(given, target, &mut [FILL; MOST_EDGES])
}

/// Checks that trace refuses like this with a table of this many edges, and leaves it as it is.
fn check_refused(given: &[u8], target: &[u8], edges: usize, expected: Answer) {
    let mut table = vec![FILL; edges];
    assert_eq!(trace(given, target, &mut table), expected);
    assert_eq!(table, vec![FILL; edges]);
}

/// The sheets, with the words also the other way round, turned over, and spelled otherwise.
#[test]
fn worked_sheets() {
    let mut random = Random::new(71);
    for (texts, target, is_member) in GRAPH_SHEETS {
        let given = system(texts);
        let words = freely_reduced(&given);
        let turned = words.words().iter().rev().flat_map(inverted).collect();
        let spelled = random.unreduced_system(words.words(), 4);
        let other_target = record(random.unreduced(target.as_bytes(), 4));
        for given in [given, turned, spelled] {
            for target in [record(target), other_target] {
                let answer = traced(&given, &target);
                assert_eq!(answer, verdict(is_member), "{texts:?} {target:?}");
            }
        }
    }
}

/// The record of a word's inverse.
fn inverted(word: &Word) -> [u8; RECORD] {
    record(word.inverse().letters())
}

/// The sheets on member and those on ask, which trace answers where ask refuses the system too.
#[test]
fn other_sheets() {
    for sheet in &SHEETS {
        let (target, is_member) = match sheet.target {
            Target::None => continue,
            Target::Member(target, _) => (target, true),
            Target::NotMember(target) => (target, false),
        };
        let answer = traced(&system(sheet.given), &record(target));
        assert_eq!(answer, verdict(is_member), "{}", sheet.name);
    }
    for sheet in &ASK_SHEETS {
        let answer = traced(&system(sheet.asked), &record(sheet.target));
        let is_member = sheet.answer != Asked::NotMember;
        assert_eq!(answer, verdict(is_member), "{}", sheet.name);
    }
}

/// Refusal 21 for every number of edges up to 1,007, whatever the words are; more edges do no harm.
#[test]
fn lengths_of_the_table() {
    let full = system(&[&"ab".repeat(32)[..LONGEST]; MOST_RECORDS]);
    for given in [Vec::new(), system(&["ab", "b"]), system(&["aA"]), full] {
        for target in [record(""), record("aA"), record("c")] {
            for edges in 0..MOST_EDGES {
                check_refused(&given, &target, edges, refused(EDGE_TABLE_SHORT, 0));
            }
            for edges in [1008, 1009, 2000] {
                let answer = trace(&given, &target, &mut vec![FILL; edges]);
                assert_eq!(answer, verdict(target != record("c")), "{edges}");
            }
        }
    }
}

/// Systems with the first refusal that they get, or whether a is a member.
fn systems_with_outcomes() -> [(Vec<u8>, Result<bool, Refusal>); 10] {
    let sound = system(&["ab", "b"]).repeat(9);
    let with = |length: usize, place: usize, byte: u8| {
        let mut given = sound[..length].to_vec();
        given[place] = byte;
        given
    };
    let refused = |number, place| Err(Refusal::new(number, place));
    [
        (with(1152, 9, b'x'), refused(SYSTEM_TOO_LONG, 0)),
        (with(1025, 63, b'.'), refused(SYSTEM_TOO_LONG, 0)),
        (with(1023, 9, b'x'), refused(SYSTEM_UNEVEN, 0)),
        (with(1, 0, b'?'), refused(SYSTEM_UNEVEN, 0)),
        (with(1024, 63, b'.'), refused(NO_LINE_FEED, 63)),
        (
            with(1024, 1000, b'?'),
            refused(NEITHER_LETTER_NOR_STOP, 1000),
        ),
        (with(128, 73, b'x'), refused(LETTER_AFTER_STOP, 73)),
        (with(1024, 0, b'a'), Ok(true)),
        (with(64, 0, b'a'), Ok(false)),
        (Vec::new(), Ok(false)),
    ]
}

/// Targets that are not a well-formed record, with the place of their refusal; then the sound one a.
fn targets_with_places() -> Vec<(Vec<u8>, Option<usize>)> {
    let sound = record("a");
    let mut targets = vec![
        (Vec::new(), Some(0)),
        (sound[..63].to_vec(), Some(0)),
        (sound.repeat(2), Some(0)),
    ];
    for (place, byte, expected) in [(63, b'.', 63), (5, b' ', 5), (9, b'a', 9), (0, b'.', 1)] {
        let mut target = record("ab");
        target[place] = byte;
        targets.push((target.to_vec(), Some(expected)));
    }
    targets.push((sound.to_vec(), None));
    targets
}

/// The tests in their order, with every mixture of systems, targets and tables: what is wrong with the
/// system, then 6, then 21.
#[test]
fn refusals_in_order() {
    for (given, of_system) in systems_with_outcomes() {
        for (target, malformed) in targets_with_places() {
            for edges in [0, 1, 1007, 1008, 1009, 2000] {
                let expected = match (of_system, malformed) {
                    (Err(refusal), _) => Answer::refused(refusal),
                    (_, Some(place)) => refused(TARGET_OR_PRODUCT_MALFORMED, place),
                    (_, None) if edges < 1008 => refused(EDGE_TABLE_SHORT, 0),
                    (Ok(is_member), None) => verdict(is_member),
                };
                if expected.number == 0 {
                    let answer = trace(&given, &target, &mut vec![FILL; edges]);
                    assert_eq!(answer, expected);
                } else {
                    check_refused(&given, &target, edges, expected);
                }
            }
        }
    }
}

/// The edges of a graph that is folded naively: each with a small letter, and the base is the point 0.
struct NaiveGraph {
    edges: Vec<(usize, u8, usize)>,
}

impl NaiveGraph {
    /// A loop at the base for each row of letters, with points of its own between.
    fn loops(rows: &[&[u8]]) -> NaiveGraph {
        let mut edges = Vec::new();
        let mut points = 1;
        for row in rows {
            let mut point = 0;
            for (place, &letter) in row.iter().enumerate() {
                let is_last = place + 1 == row.len();
                let next = if is_last { 0 } else { points };
                points += usize::from(!is_last);
                edges.push(match letter.is_ascii_lowercase() {
                    true => (point, letter, next),
                    false => (next, letter.to_ascii_lowercase(), point),
                });
                point = next;
            }
        }
        NaiveGraph { edges }
    }

    /// Folds two edges after the other until none are left to fold.
    fn fold(mut self) -> NaiveGraph {
        while let Some((first, second)) = self.two_to_fold() {
            let (from, _, to) = self.edges[first];
            let (other_from, _, other_to) = self.edges.remove(second);
            self.make_one(from, other_from);
            self.make_one(to, other_to);
        }
        self
    }

    /// Two edges with the same letter that leave or enter one point, if there are such.
    fn two_to_fold(&self) -> Option<(usize, usize)> {
        for (second, &(from, letter, to)) in self.edges.iter().enumerate() {
            let first = self.edges[..second]
                .iter()
                .position(|other| letter == other.1 && (from == other.0 || to == other.2));
            if let Some(first) = first {
                return Some((first, second));
            }
        }
        None
    }

    /// Makes two points one, which has the smaller of their numbers, so that the base stays 0.
    fn make_one(&mut self, one: usize, other: usize) {
        for (from, _, to) in &mut self.edges {
            for point in [from, to] {
                if *point == one.max(other) {
                    *point = one.min(other);
                }
            }
        }
    }

    /// The point to which an edge leads from a point by a letter, forward or backward, if there is one.
    fn next(&self, point: usize, letter: u8) -> Option<usize> {
        let mut edges = self.edges.iter();
        if letter.is_ascii_lowercase() {
            let edge = edges.find(|edge| (edge.0, edge.1) == (point, letter));
            return edge.map(|edge| edge.2);
        }
        let letter = letter.to_ascii_lowercase();
        let edge = edges.find(|edge| (edge.2, edge.1) == (point, letter));
        edge.map(|edge| edge.0)
    }

    /// Whether the letters trace a path from the base back to it.
    fn traces_loop(&self, letters: &[u8]) -> bool {
        let mut path = letters.iter();
        path.try_fold(0, |point, &letter| self.next(point, letter)) == Some(0)
    }
}

/// The edges that are reached from a base, with the points numbered in the order in which they are met,
/// letter by letter: of two graphs the same exactly when the graphs are alike.
fn edges_from<P: Copy + PartialEq>(
    base: P,
    next: impl Fn(P, u8) -> Option<P>,
) -> Vec<(usize, u8, usize)> {
    let mut met = vec![base];
    let mut edges = Vec::new();
    let mut number = 0;
    while number < met.len() {
        for letter in small::letters(26) {
            let Some(to) = next(met[number], letter) else {
                continue;
            };
            if !met.contains(&to) {
                met.push(to);
            }
            let to = met.iter().position(|&point| point == to);
            edges.push((number, letter, to.expect("it has been met")));
        }
        number += 1;
    }
    edges
}

/// Checks that the folded graph of a system is the naively folded one, and gives how many edges were
/// folded away.
fn check_graph(given: &[u8]) -> usize {
    let words = freely_reduced(given);
    let rows: Vec<&[u8]> = words.words().iter().map(Word::letters).collect();
    let naive = NaiveGraph::loops(&rows).fold();
    let graph = Graph::folded(words.words());
    let edges = edges_from(graph.base(), |point, letter| graph.next(point, letter));
    let naive_edges = edges_from(0, |point, letter| naive.next(point, letter));
    assert_eq!(edges, naive_edges);
    assert_eq!(edges.len(), 2 * naive.edges.len());
    let points = edges.iter().map(|edge| edge.0).max().unwrap_or(0) + 1;
    assert_eq!(graph.rank() + points, naive.edges.len() + 1);
    rows.concat().len() - naive.edges.len()
}

/// A random system of this many words whose graph is likely to have much to fold.
fn system_to_fold(
    random: &mut Random,
    generators: usize,
    records: usize,
    longest: usize,
) -> Vec<u8> {
    match random.below(6) {
        0 => random.system(Kind::Cancelling, generators, records, 0, longest),
        1 => random.system_of_common_beginnings(generators, records, 0, longest),
        2 => random.system_of_conjugates(generators, records, LONGEST),
        3 => random.system_of_powers_of_a_word(generators, records, LONGEST),
        4 => random.system_of_shared_halves(generators, records, longest / 2),
        _ => random.system_of_shared_beginnings(generators, records),
    }
}

/// The folded graph is that which comes from folding two edges after the other, on small systems and on
/// some of the longest.
#[test]
fn graphs_folded_naively() {
    let mut random = Random::new(72);
    let mut folded = 0;
    for round in 0..2500 {
        let generators = [1, 2, 3, 5, 26][round % 5];
        let (records, longest) = (random.below(5), random.between(2, 12));
        folded += check_graph(&system_to_fold(&mut random, generators, records, longest));
    }
    for generators in [1, 2, 3] {
        let kind = Kind::Reduced;
        let longest = random.system(kind, generators, MOST_RECORDS, LONGEST, LONGEST);
        folded += check_graph(&longest);
    }
    assert!(folded > 20_000, "{folded}");
}

/// All systems of a few short words, with their graphs folded naively.
#[test]
fn small_graphs_folded_naively() {
    for (generators, longest, records) in [(1, 6, 2), (2, 3, 2), (2, 1, 4), (3, 1, 3)] {
        small::for_each_system(generators, longest, records, |system| {
            check_graph(system);
        });
    }
}

/// A graph of the words as they stand, not freely reduced first, traces the same loops.
#[test]
fn loops_of_words_as_they_stand() {
    let mut random = Random::new(73);
    for round in 0..1000 {
        let generators = [1, 2, 3][round % 3];
        let given = random.system(Kind::Cancelling, generators, 4, 0, 10);
        let rows = read_system_as_given(&given).expect("the system is well formed");
        let as_they_stand = NaiveGraph::loops(&rows).fold();
        for _ in 0..10 {
            let target = any_target(&mut random, freely_reduced(&given).words(), generators);
            let answer = traced(&given, &record(&target));
            let target = Word::freely_reduced(&target);
            assert_eq!(answer, verdict(as_they_stand.traces_loop(target.letters())));
        }
    }
}

/// A target: a product of the words, one with one letter changed, or any letters.
fn any_target(random: &mut Random, words: &[Word], generators: usize) -> Vec<u8> {
    let factors = random.below(12);
    let product = random.product(words, factors);
    let length = random.below(LONGEST + 1);
    match random.below(6) {
        0 => random.cancelling_letters(generators, length),
        1..=3 => random
            .one_letter_changed(&product, generators)
            .letters()
            .to_vec(),
        4 => random.unreduced(product.letters(), generators),
        _ => product.letters().to_vec(),
    }
}

/// Trace gives the verdict of member.
#[test]
fn trace_against_member() {
    let mut random = Random::new(74);
    let mut counts = [0; 2];
    for round in 0..1500 {
        let generators = [1, 2, 3, 5, 26][round % 5];
        let given = random.system_to_reduce(generators);
        let log = reduction(&given).log.len();
        for _ in 0..3 {
            let target = any_target(&mut random, freely_reduced(&given).words(), generators);
            let target = record(target);
            let (mut words, mut log) = (vec![0; given.len()], vec![0; log]);
            let answer = member(&given, &target, &mut words, &mut log, &mut [0; RECORD]);
            assert_eq!(traced(&given, &target), verdict(answer.verdict == MEMBER));
            counts[usize::from(answer.verdict == MEMBER)] += 1;
        }
    }
    assert!(counts[0] > 1000 && counts[1] > 1000, "{counts:?}");
}

/// The greatest common divisor of two numbers.
fn common_divisor(one: usize, other: usize) -> usize {
    match other {
        0 => one,
        _ => common_divisor(other, one % other),
    }
}

/// Of two powers of one letter just the multiples of their greatest common divisor are members.
#[test]
fn powers_by_their_exponents() {
    for one in 0..=LONGEST {
        for other in 0..=one {
            let given = system(&[&"x".repeat(one), &"X".repeat(other)]);
            let divisor = common_divisor(one, other);
            for power in [0, 1, divisor, 2 * divisor, divisor + 1, LONGEST] {
                let power = power.min(LONGEST);
                let is_member = power == 0 || divisor > 0 && power.is_multiple_of(divisor);
                let answer = traced(&given, &record("X".repeat(power)));
                assert_eq!(answer, verdict(is_member), "{one} {other} {power}");
            }
        }
    }
}

/// The folded graph of all Schreier generators is the action, and just the words that lead its first
/// point back are members.
#[test]
fn members_by_actions() {
    let mut random = Random::new(75);
    for round in 0..300 {
        let generators = 1 + round % 3;
        let points = random.between(1, 7);
        let action = random.action(generators, points);
        let words = action.schreier_generators(&mut random);
        let graph = Graph::folded(&words);
        let letters = small::letters(generators);
        let led = |point, letter| {
            letters
                .contains(&letter)
                .then(|| action.next(point, letter))
        };
        let edges = edges_from(graph.base(), |point, letter| graph.next(point, letter));
        assert_eq!(edges, edges_from(0, led));
        let given: Vec<u8> = words
            .iter()
            .flat_map(|word| record(word.letters()))
            .collect();
        for _ in 0..10 {
            let target = any_target(&mut random, &words, generators);
            let answer = traced(&given, &record(&target));
            assert_eq!(answer, verdict(action.returns(&target)));
        }
    }
}
