//! Times the reader and the writer of texts, against the Rust version and against the quick one, which
//! makes one pass and builds no tree.

use crate::entries::{put_length, Entry, LENGTH, READ_TEXT, WRITE_TEXT};
use crate::timing::{line, time};
use subgroups_reference::quick_text;
use subgroups_reference::random::Random;
use subgroups_reference::read_text::{read_text, DEEPEST, LONGEST_TEXT};
use subgroups_reference::records::{record, RECORD};
use subgroups_reference::words::LONGEST;
use subgroups_reference::Answer;

/// How many random texts and words of a kind are timed.
const TEXTS: usize = 64;

/// The reader, in one pass on the Rust side.
const QUICK_READ_TEXT: Entry<1, 1> = Entry {
    rust: quick_text::read_text,
    ..READ_TEXT
};

/// The writer, sign by sign on the Rust side.
const QUICK_WRITE_TEXT: Entry<1, 2> = Entry {
    rust: |[word], [text, length]| put_length(quick_text::write_text(word, text), length),
    ..WRITE_TEXT
};

/// Times all kinds of texts and words.
pub fn bench() {
    let random = &mut Random::new(341);
    for (name, texts) in [
        ("(ab)^-3[a,b]", vec![b"(ab)^-3[a,b]".to_vec()]),
        ("63 letters, none cancel", letters(random)),
        ("256 letters, all cancel", vec![b"aBbA".repeat(64)]),
        ("powers up to 63", powers()),
        ("nested 8 deep, 242 bytes", vec![nested()]),
        ("random, nested up to 8 deep", any_texts(random)),
    ] {
        let texts: Vec<[Vec<u8>; 1]> = texts.into_iter().map(|text| [text]).collect();
        let times = time(READ_TEXT, &texts, [RECORD]);
        line(&format!("read text, {name}"), times);
        let times = time(QUICK_READ_TEXT, &texts, [RECORD]);
        line(&format!("read text, {name}, to one pass"), times);
    }
    let runs = || random.letters_in_runs(3, LONGEST);
    let runs = std::iter::repeat_with(runs).take(TEXTS).collect();
    for (name, words) in [
        ("63 letters in runs", runs),
        (
            "63 letters abab..",
            vec![b"ab".repeat(32)[..LONGEST].to_vec()],
        ),
        (
            "63 letters AABB..",
            vec![b"AABB".repeat(16)[..LONGEST].to_vec()],
        ),
        ("one letter 63 times", vec![b"Z".repeat(LONGEST)]),
    ] {
        let words: Vec<[Vec<u8>; 1]> = words.iter().map(|word| [record(word).to_vec()]).collect();
        let times = time(WRITE_TEXT, &words, [LONGEST_TEXT, LENGTH]);
        line(&format!("write text, {name}"), times);
        let times = time(QUICK_WRITE_TEXT, &words, [LONGEST_TEXT, LENGTH]);
        line(&format!("write text, {name}, to one pass"), times);
    }
}

/// Words of 63 letters.
fn letters(random: &mut Random) -> Vec<Vec<u8>> {
    let word = || random.reduced_letters(3, LONGEST);
    std::iter::repeat_with(word).take(TEXTS).collect()
}

/// Powers of a letter, of a group and of a bracket with every exponent that their values allow.
fn powers() -> Vec<Vec<u8>> {
    let mut texts = Vec::new();
    for exponent in 1..=LONGEST {
        let (by_two, by_four) = (exponent / 2, exponent / 4);
        let powers = [
            format!("a^{exponent}b^-{}", LONGEST - exponent),
            format!("(ab)^-{by_two}"),
            format!("[a,b]^{by_four}"),
            format!("(abA)^{}", exponent - exponent / 31),
        ];
        texts.extend(powers.map(String::into_bytes));
    }
    texts
}

/// A text of 242 bytes with groups and brackets to the greatest depth, whose value has 22 letters.
fn nested() -> Vec<u8> {
    let groups = "(a(b(c(d(e(f(g(hx)^-2G)^2F)E)^-1D)C)^-1B)A)";
    let brackets = "[a,[b,[c,[d,[e,[f,[g,[,h]]]]]]]]";
    format!("{groups}{brackets}{groups}^-1{groups}{brackets}{groups}^-2").into_bytes()
}

/// Random texts of all depths that are read.
fn any_texts(random: &mut Random) -> Vec<Vec<u8>> {
    let text = || {
        let depth = random.between(0, DEEPEST);
        random.text(3, depth)
    };
    let texts = std::iter::repeat_with(text);
    let is_read = |text: &Vec<u8>| read_text(text, &mut [0; RECORD]) == Answer::done();
    texts.filter(is_read).take(TEXTS).collect()
}
