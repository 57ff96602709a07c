//! The inputs on which the reader of texts is compared: all short texts, texts at every limit, sound
//! texts of every depth, and texts spoiled in one place or in several.

use crate::comparison::Comparison;
use crate::entries::READ_TEXT;
use crate::inputs::*;
use crate::texts::*;
use subgroups_reference::answers::DONE;
use subgroups_reference::random::Random;
use subgroups_reference::read_text::LONGEST_TEXT;
use subgroups_reference::records::RECORD;
use subgroups_reference::refusals::*;
use subgroups_reference::words::{inverse_letters, LONGEST};

/// The comparison of the reader: the text; the word buffer.
type ReadText = Comparison<1, 1>;

/// Compares the reader on all its inputs and gives the number of calls.
pub fn compare() -> u64 {
    let calls = &mut ReadText::without_system("read text", READ_TEXT, ["text"], ["word buffer"]);
    for_each_short_text(|text| call_text(calls, text));
    for_each_byte_at_a_place(|text| call_with_two_rooms(calls, text));
    buffer_lengths(calls);
    text_lengths(calls);
    long_texts(calls);
    for_each_spoiled_sheet(|text| call_text(calls, text));
    exponents(calls);
    for_each_nesting(|text| call_text(calls, text));
    rows_and_powers(calls);
    brackets(calls);
    for_each_trouble(|text| call_with_two_rooms(calls, text));
    random_texts(calls);
    let refusals = [
        WORDS_BUFFER_SHORT,
        WORD_TOO_LONG,
        TEXT_MALFORMED,
        NESTING_TOO_DEEP,
        EXPONENT_OUT_OF_RANGE,
    ];
    calls.end(&[DONE], &refusals)
}

/// Compares a call with this text and just enough room.
fn call_text(calls: &mut ReadText, text: impl AsRef<[u8]>) {
    calls.call([text.as_ref()], [RECORD]);
}

/// Compares calls with this text, with just enough room and with one byte less.
fn call_with_two_rooms(calls: &mut ReadText, text: &[u8]) {
    calls.call([text], [RECORD]);
    calls.call([text], [RECORD - 1]);
}

/// Every length of the word buffer up to 131 bytes, and far longer ones, for texts of every outcome.
fn buffer_lengths(calls: &mut ReadText) {
    for text in sheet_texts() {
        for length in 0..=130 {
            calls.call([text.as_bytes()], [length]);
        }
    }
    for text in ["", "(ab)^-3[a,b]", "a^63a", "a^64", "[a]"] {
        calls.call_with_every_length([text.as_bytes()], [RECORD], 0);
    }
}

/// Texts of every length to 300 bytes and far longer ones, well formed and malformed.
fn text_lengths(calls: &mut ReadText) {
    let mut random = Random::new(1001);
    for length in (0..=300).chain(LONG_LENGTHS) {
        let pairs = "aA".repeat(length.div_ceil(2));
        let pairs = &pairs.as_bytes()[..length];
        call_with_two_rooms(calls, pairs);
        for place in [0, length / 2, length.saturating_sub(1)] {
            for_each_changed_byte(pairs, place..length.min(place + 1), b"b(,^?", |text| {
                call_with_two_rooms(calls, text);
            });
        }
        for sign in *b"(,^" {
            call_text(calls, vec![sign; length]);
        }
        for text in [&b"(((((((((a)))))))))"[..], b"a^64", b"a^63a"] {
            call_text(calls, padded(text, length));
        }
        call_text(calls, any_bytes(&mut random, length));
    }
}

/// Random texts of all depths made 255 to 257 bytes long, sound and spoiled.
fn long_texts(calls: &mut ReadText) {
    let mut random = Random::new(1004);
    for length in LONGEST_TEXT - 1..=LONGEST_TEXT + 1 {
        for round in 0..1_000 {
            let generators = GENERATORS[round % 5];
            let mut text = random.text(generators, round % 11);
            while text.len() < LONGEST_TEXT / 2 {
                text.extend(random.text(generators, round % 10));
            }
            let text = padded(&text, length);
            call_text(calls, &text);
            call_text(calls, random.spoiled_text(&text));
        }
    }
}

/// Exponents of one to three digits with every sign before them, on factors of every kind.
fn exponents(calls: &mut ReadText) {
    for factor in [
        "a", "B", "()", "(ab)", "(aBA)", "(aaBAA)", "[a,b]", "[a,]", "[ab,ba]",
    ] {
        for size in 0..=120 {
            for digits in [
                format!("{size}"),
                format!("{size:02}"),
                format!("{size:03}"),
            ] {
                for sign in ["", "-", "+", "--"] {
                    let power = format!("{factor}^{sign}{digits}");
                    call_text(calls, format!("({power})^0"));
                    call_text(calls, format!("[c,{power}d]"));
                    call_text(calls, format!("{power}c"));
                    call_text(calls, power);
                }
            }
        }
    }
}

/// Rows and powers whose values have about 63 letters, as factors, as beginnings of products that
/// cancel, and inside groups and brackets.
fn rows_and_powers(calls: &mut ReadText) {
    let mut random = Random::new(1002);
    for length in 0..=LONGEST {
        for times in 0..=LONGEST {
            let root = random.reduced_letters(2, length.div_ceil(2));
            let end = random.reduced_letters(2, times % 4);
            let root = [&end[..], &root, &inverse_letters(&end)].concat();
            let root = String::from_utf8_lossy(&root);
            call_text(calls, format!("({root})^-{times}"));
            call_text(calls, format!("a^{length}b^{times}"));
            call_text(calls, format!("a^{length}(b^{times}B^{times})A^{length}"));
        }
    }
    for length in LONGEST - 2..=LONGEST + 3 {
        for _ in 0..40 {
            let row = random.reduced_letters(2, length);
            let back = String::from_utf8(inverse_letters(&row)).expect("letters are text");
            let row = String::from_utf8(row).expect("letters are text");
            call_text(calls, &row);
            call_text(calls, format!("({row})^-1"));
            call_text(calls, format!("({row})^0"));
            call_text(calls, format!("{row}{back}"));
            call_text(calls, format!("[{row},]"));
            call_text(calls, format!("[{row}{back},c]"));
            call_text(calls, format!("[a,({row})({back})b]"));
        }
    }
}

/// Brackets of powers, and of rows with beginnings and ends in common, of all lengths; many cancel.
fn brackets(calls: &mut ReadText) {
    for one in 0..=LONGEST {
        for two in 0..=LONGEST {
            call_text(calls, format!("[a^{one},b^{two}]"));
            call_text(calls, format!("[a^{one},a^-{two}]b"));
            call_text(calls, format!("[(ab)^{one},(ab)^{two}]"));
            call_text(calls, format!("[c^{one}a^5b,c^{one}b^{two}]"));
            call_text(calls, format!("[ac^{one},bc^{two}]^-1"));
        }
    }
}

/// Random texts of every depth up to 10, two in a row, and spoiled in one place and in two, with any
/// room.
fn random_texts(calls: &mut ReadText) {
    let mut random = Random::new(1003);
    for generators in GENERATORS {
        for round in 0..11_000 {
            let text = random.text(generators, round % 11);
            let other = random.text(generators, round % 5);
            call_text(calls, &text);
            call_text(calls, [&text[..], &other].concat());
            let spoiled = random.spoiled_text(&text);
            let twice = random.spoiled_text(&spoiled);
            for text in [text, spoiled, twice] {
                let room = any_room(&mut random, RECORD);
                calls.call([&text], [room]);
            }
        }
    }
}
