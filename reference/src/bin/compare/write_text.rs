//! The inputs on which the writer of texts is compared: words of every kind, in sound and in damaged
//! records. Where a call is not refused, the text is read back by the proved reader.

use crate::comparison::Comparison;
use crate::entries::{LENGTH, READ_TEXT, WRITE_TEXT};
use crate::in_turn::gives;
use crate::inputs::*;
use subgroups_reference::answers::{Answer, DONE};
use subgroups_reference::random::{Kind, Random};
use subgroups_reference::read_text::LONGEST_TEXT;
use subgroups_reference::records::{freely_reduced, record, RECORD};
use subgroups_reference::refusals::{TARGET_OR_PRODUCT_MALFORMED, WORDS_BUFFER_SHORT};
use subgroups_reference::small;
use subgroups_reference::text_sheets::{READ, WRITTEN};
use subgroups_reference::words::LONGEST;

/// The comparison of the writer: the word; the text buffer and the length of the text.
type WriteText = Comparison<1, 2>;

/// Compares the writer on all its inputs and gives the number of calls.
pub fn compare() -> u64 {
    let buffers = ["text buffer", "length of the text"];
    let calls = &mut WriteText::without_system("write text", WRITE_TEXT, ["word"], buffers);
    calls.another_check = Some(check_read_back);
    sheets(calls);
    for letters in small::rows(2, 7) {
        call_letters(calls, letters);
    }
    runs(calls);
    damaged_words(calls);
    random_words(calls);
    calls.end(&[DONE], &[TARGET_OR_PRODUCT_MALFORMED, WORDS_BUFFER_SHORT])
}

/// Checks that the proved reader makes of the text the record of the word, freely reduced.
fn check_read_back(
    [word]: [&[u8]; 1],
    [text, length]: [&[u8]; 2],
    _: Answer,
) -> Result<(), &'static str> {
    let length = u64::from_ne_bytes(length.try_into().expect("the bytes of a number"));
    let text = &text[..length as usize];
    let expected = record(freely_reduced(word).words()[0].letters());
    if gives(READ_TEXT, [text], [&expected], Answer::done()) {
        Ok(())
    } else {
        Err("the proved reader makes another word of the text")
    }
}

/// Compares a call with a word given as letters and just enough room.
fn call_letters(calls: &mut WriteText, letters: impl AsRef<[u8]>) {
    calls.call([&record(letters)], [LONGEST_TEXT, LENGTH]);
}

/// The words of the sheets and the longest text of all, with every length of the text buffer.
fn sheets(calls: &mut WriteText) {
    let longest = &"AABB".repeat(16)[..LONGEST];
    let words = WRITTEN.iter().map(|(letters, _)| *letters);
    for letters in words.chain(["ABab", longest]) {
        let needed = [LONGEST_TEXT, LENGTH];
        calls.call_with_every_length([&record(letters)], needed, 0);
    }
    for (_, letters) in READ {
        call_letters(calls, letters);
    }
}

/// Runs of every length, alone, one after another, and between other letters.
fn runs(calls: &mut WriteText) {
    for letter in (b'a'..=b'z').chain(b'A'..=b'Z') {
        for length in 1..=LONGEST {
            let run = vec![letter; length];
            call_letters(calls, &run);
            for other in *b"aAmzZ" {
                let beside = LONGEST - length;
                let (before, after) = (vec![other; beside / 2], vec![other; beside - beside / 2]);
                call_letters(calls, [&before[..], &run, &after].concat());
                call_letters(calls, [&before[..before.len().min(1)], &run].concat());
                call_letters(calls, [&run, &after[..after.len().min(1)]].concat());
            }
        }
    }
    for pair in ["ab", "aB", "Ab", "AB", "aA", "Zz", "az", "YZ"] {
        for repeated in 1..=LONGEST {
            let runs = pair.chars().cycle().map(|letter| letter.to_string());
            let runs = runs.map(|letter| letter.repeat(repeated)).take(LONGEST);
            let letters: String = runs.collect();
            for length in [LONGEST, LONGEST - 1, LONGEST / 2] {
                call_letters(calls, &letters[..length]);
            }
        }
    }
}

/// Records of every length, with each byte changed to every other and with two changed, where there is
/// room and where there is not.
fn damaged_words(calls: &mut WriteText) {
    for_each_length_of_record("aaB", |word| {
        for room in [LONGEST_TEXT, LONGEST_TEXT - 1, 0] {
            calls.call([word], [room, LENGTH]);
        }
    });
    for_each_damaged_record("aabCD", |word| calls.call([word], [LONGEST_TEXT, LENGTH]));
    for base in records_of("abbCD") {
        for_each_changed_byte(&base, 0..RECORD, &TELLING_BYTES, |word| {
            for room in rooms(LONGEST_TEXT) {
                calls.call([word], [room, LENGTH]);
            }
        });
    }
}

/// Random words of all kinds, of runs and with damage, with any room.
fn random_words(calls: &mut WriteText) {
    let mut random = Random::new(1101);
    for generators in GENERATORS {
        for round in 0..5_000 {
            let length = random.below(LONGEST + 1);
            let letters = match round % 4 {
                0 => random.letters_in_runs(generators, length),
                kind => random.letters(Kind::ALL[kind - 1], generators, length),
            };
            let mut word = record(letters);
            let room = any_room(&mut random, LONGEST_TEXT);
            calls.call([&word], [LONGEST_TEXT, LENGTH]);
            calls.call([&word], [room, LENGTH]);
            damage(&mut random, &mut word);
            calls.call([&word], [room, LENGTH]);
        }
    }
}
