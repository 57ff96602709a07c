//! The inputs on which test is compared: systems that are reduced, that just fail to be, and all
//! others.

use crate::comparison::Comparison;
use crate::entries::TEST;
use crate::inputs::*;
use subgroups_reference::answers::DONE;
use subgroups_reference::random::Random;
use subgroups_reference::records::{record, system, RECORD};
use subgroups_reference::reduction::reduction;
use subgroups_reference::small;
use subgroups_reference::words::Word;

/// The comparison of test: the system; no buffer.
type Test = Comparison<1, 0>;

/// Compares test on all its inputs and gives the number of calls.
pub fn compare() -> u64 {
    let calls = &mut Test::new("test", TEST, ["system"], []);
    for system in sheet_systems() {
        calls.call([&system], []);
        calls.call([&reduction(&system).words], []);
    }
    calls.walk_lengths(|calls, system| calls.call([system], []));
    for_each_malformed_system(|system| calls.call([system], []));
    for_each_two_faults(|system| calls.call([system], []));
    for system in sound_and_refused_systems() {
        calls.call([&system], []);
    }
    for_each_small_system(|system| calls.call([system], []));
    telling_systems(calls);
    long_halves(calls);
    random_systems(calls);
    assert!(calls.seen.reduced > 10_000, "too few systems are reduced");
    calls.end(&[DONE], &[])
}

/// Systems at the edge of being reduced: squares, shared halves, inverses, repeats and blanks.
fn telling_systems(calls: &mut Test) {
    let systems: [&[&str]; 24] = [
        &["abab"],
        &["abab", "ab"],
        &["abab", "abc"],
        &["abab", "BAc"],
        &["abab", "abcab"],
        &["abab", "ba"],
        &["aa"],
        &["aa", "ab"],
        &["aa", "bA"],
        &["aa", "bA", "ac"],
        &["ab", "acb"],
        &["ab", "BA"],
        &["ab", "ab"],
        &["ab", "", "ab"],
        &["ab", "ac", "ad"],
        &["ab", "ac", "Bd"],
        &["abcd", "abx", "xcd"],
        &["abcd", "abx", "DCx"],
        &["abcd", "abxcd"],
        &["abcd", "bad", "dc"],
        &["abA", "acA", "adA"],
        &["abAB", "abab"],
        &["", "aA", "bBcC"],
        &["aAab", "bBb", "ccC"],
    ];
    for texts in systems {
        let given = system(texts);
        calls.call([&given], []);
        let swapped: Vec<u8> = given.rchunks(RECORD).flatten().copied().collect();
        calls.call([&swapped], []);
        let longer = [&record("")[..], &given, &record("z")].concat();
        calls.call([&longer], []);
        for_each_changed_byte(&given, 0..given.len(), &small::letters(4), |changed| {
            calls.call([changed], []);
        });
    }
}

/// Words of every length up to 63 whose beginnings and ends other words share to about a half.
fn long_halves(calls: &mut Test) {
    let mut random = Random::new(601);
    for length in 1..RECORD {
        let about_half = (length / 2).saturating_sub(1)..=(length / 2 + 1).min(length);
        for beginning in about_half.clone() {
            for end in about_half.clone() {
                for other_length in [length - 1, length, (length + 1).min(RECORD - 1), RECORD - 1] {
                    let word = random.reduced_letters(3, length);
                    let fill = random.reduced_letters(3, RECORD);
                    let first = [&word[..beginning], &fill].concat();
                    let second = [&fill, &word[length - end..]].concat();
                    let start = second.len() - other_length;
                    let words = [&word, &first[..other_length], &second[start..]];
                    turned_words(calls, words.map(Word::freely_reduced));
                }
            }
        }
    }
}

/// Three words and their inverses in every mixture, and the first two and the last two of them.
fn turned_words(calls: &mut Test, words: [Word; 3]) {
    for turned in 0..8 {
        let mut given = Vec::new();
        for (bit, word) in words.iter().enumerate() {
            let turn = turned >> bit & 1 == 1;
            let word = if turn { word.inverse() } else { *word };
            given.extend(record(word.letters()));
        }
        calls.call([&given], []);
        calls.call([&given[..2 * RECORD]], []);
        calls.call([&given[RECORD..]], []);
    }
}

/// Random systems, what reduce makes of them, and that with one word changed.
fn random_systems(calls: &mut Test) {
    let mut random = Random::new(602);
    for generators in GENERATORS {
        for round in 0..5_000 {
            let mut given = random.system_to_reduce(generators);
            calls.call([&given], []);
            let words = reduction(&given).words;
            calls.call([&words], []);
            for changed in changed_systems(&mut random, &words, generators) {
                calls.call([&changed], []);
            }
            if round % 8 == 0 {
                damage(&mut random, &mut given);
                calls.call([&given], []);
            }
        }
    }
}
