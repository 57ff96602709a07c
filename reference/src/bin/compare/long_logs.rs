//! Logs with room for as many moves as the bound of their system, or of the largest one: none is
//! refused as too short. One with room for a move less than the run has is.

use crate::inputs::GENERATORS;
use subgroups_reference::answers::Answer;
use subgroups_reference::bound::{longest_log, most_moves_of};
use subgroups_reference::logs::LOG_RECORD;
use subgroups_reference::random::{Kind, Random};
use subgroups_reference::records::{record, system, MOST_RECORDS};
use subgroups_reference::refusals::LOG_BUFFER_SHORT;
use subgroups_reference::words::LONGEST;

/// How many random systems over each number of generators have a log by their bound.
const RANDOM_SYSTEMS: usize = 800;

/// Sixteen words with 1,681 moves for 951 letters, the most that were found: by a search that changed
/// a few letters at a time, beginning from the thirteen long words below, and kept what has more moves.
const MOST_MOVES_FOUND: [&str; MOST_RECORDS] = [
    "aaaaaaabEaababababaBAebabbabbabbbaabaaababaabbbbabbbbbbbLAABBAA",
    "ahAAABBAOABBBBABABBBBBABBBBBBAAMBAABBBBAAABBBABBMABAABBBBBAABAA",
    "aaaaaaaaabbaababaaaaaaGaabaabababaabbOAAAAAABBAABAAABAABAABABAA",
    "agABABABBABABBBBBAABBBABAMBBBBBBAABBABABBBABAAAABAAABABAAABABAA",
    "eABAABAAABBABBAABBABBBABAABAAABAAABBBABABABABBBBABABABBAAAAABmA",
    "abaaabbaabbbFabaabgAbcaaabapABAAAABABAABBBAABAAAABABBABAAAABBBA",
    "CaCCaCCCCbCCabaaCCCCCCCCCCCCBCCCCCCCCbCCCCbCCCCabbaaabaabbbaaBA",
    "nmBBBABBBBBBAABABAAABBBBABBBAAABABAABABBAAABABBABABAABabaaaMABc",
    "BcBBAABBBBAABAAABAABABAAABBabbabbabFBaHBAABBAABBAAABBAABBABABBA",
    "abbbbbbhFaaaaaaabbabbabFBaHBABAABBABABBBABAABBBBAAAABAAAAAAAABA",
    "CBCCCCCCCCCCCCCCCCCCCCCCCCCCCCCCCCCCCCCCCCCCCCCCCCCCCCCCCCCCCCC",
    "ClaabfAABAABAABBBBAAABAAABBBBAABBBBBBBABABABAAAABAAABAAABAABBBA",
    "CabbabbbbbobababbbmmababaaaabbaafbaabbabababbaabaabbhBBBBBBAABA",
    "aaaababaaaabaaaaaBabaaaMBBBBBBAABABABABAAABAABAABABBBAAAAABAABA",
    "CBccbc",
    "cccccccccccccccccccccccccccccccccccccccccccccccccccccccccccccac",
];

/// Thirteen words of 63 letters and three more, with 1,661 moves for 947 letters. The last two first lose
/// 60 letters each by cc, two in a move, and become CAC and CBC. Then the thirteen lose 61 letters each, one
/// word after the other, by two moves for each letter: a half-end move by cc makes C of the last letter c, then
/// CAC or CBC takes off the letter before it and makes c of the last one again.
fn thirteen_long_words() -> Vec<u8> {
    let long = |number: usize| {
        let first = char::from(b'c' + number as u8);
        let row = "A".repeat(61 - number) + &"B".repeat(number);
        format!("{first}{row}c")
    };
    let others = ["A", "B"].map(|letter| format!("C{letter}{}", "C".repeat(61)));
    let words = (1..=13).map(long).chain(["cc".to_string()]).chain(others);
    words.flat_map(record).collect()
}

/// Systems with very many moves for their size.
fn systems_with_many_moves() -> Vec<Vec<u8>> {
    let power = "a".repeat(LONGEST);
    vec![
        // The largest share of the bound that was found, 63 of 324: each move takes one letter off.
        system(&["a", &power]),
        // Two moves for each letter A, as above: 128 of 896.
        system(&[&("A".repeat(62) + "c"), "cc", "CAC"]),
        // The fewest letters with which more moves than letters were found: 9 moves for 8.
        system(&["ABa", "abb", "aa"]),
        // As many letters as there can be; one word after the other cancels to nothing.
        system(&[&power[..]; MOST_RECORDS]),
        thirteen_long_words(),
        system(&MOST_MOVES_FOUND),
    ]
}

/// Systems of no record and of one, which have no moves, and of two and three with few letters.
fn systems_of_few_records() -> Vec<Vec<u8>> {
    let power = "a".repeat(LONGEST);
    let few: [&[&str]; 9] = [
        &[],
        &[""],
        &["a"],
        &["aA"],
        &[&power],
        &["", ""],
        &["a", ""],
        &["aA", "b"],
        &["", "ab", "b"],
    ];
    few.into_iter().map(system).collect()
}

/// Random systems of 16 words of up to 63 letters: almost all reduced, dependent ones, and powers.
fn large_systems(random: &mut Random) -> Vec<Vec<u8>> {
    let mut systems = Vec::new();
    for _ in 0..8 {
        for generators in [2, 3] {
            systems.push(random.system(Kind::Reduced, generators, MOST_RECORDS, 55, LONGEST));
            systems.push(random.dependent_system(generators, MOST_RECORDS, 20, LONGEST));
        }
        systems.push(random.system_of_powers(1, MOST_RECORDS));
    }
    systems
}

/// Lends a system with a log by its bound, and with one that has room for a move less than its run has.
fn lend_by_the_bound(system: &[u8], call: &mut impl FnMut(&[u8], usize) -> Answer) {
    let answer = call(system, LOG_RECORD * most_moves_of(system));
    assert_ne!(answer.number, LOG_BUFFER_SHORT, "{}", system.escape_ascii());
    if let Some(fewer) = (answer.moves as usize).checked_sub(1) {
        let answer = call(system, LOG_RECORD * fewer);
        assert_eq!(answer.number, LOG_BUFFER_SHORT, "{}", system.escape_ascii());
    }
}

/// Lends these systems and others with logs by their bounds, and those with many moves with the longest
/// log too. Each call is made with a system and the length of a log, and gives the answer.
pub fn for_each_long_log(
    seed: u64,
    with_many_moves: Vec<Vec<u8>>,
    mut call: impl FnMut(&[u8], usize) -> Answer,
) {
    let mut random = Random::new(seed);
    let mut systems = systems_with_many_moves();
    systems.extend(systems_of_few_records());
    systems.extend(with_many_moves);
    systems.extend(large_systems(&mut random));
    for system in systems {
        lend_by_the_bound(&system, &mut call);
        let answer = call(&system, longest_log());
        assert_ne!(answer.number, LOG_BUFFER_SHORT, "{}", system.escape_ascii());
    }
    for generators in GENERATORS {
        for _ in 0..RANDOM_SYSTEMS {
            lend_by_the_bound(&random.system_to_reduce(generators), &mut call);
        }
    }
}
