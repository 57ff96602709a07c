//! Tests of the reader and the writer of texts: every refusal with its place, their order, values
//! about 63 letters long, and words that are written and read back.

use crate::answers::Answer;
use crate::random::{Kind, Random};
use crate::read_text::{DEEPEST, LONGEST_TEXT};
use crate::records::record;
use crate::refusals::*;
use crate::small;
use crate::text_sheets::{READ, REFUSED, WRITTEN};
use crate::words::{free_reduction, Word, LONGEST};
use crate::{read_text, write_text};

const FILL: u8 = 0xEE;

/// The letters that a text is read as, after a look that just the record is written, or its refusal,
/// after a look that nothing is.
fn read(text: impl AsRef<[u8]>) -> Result<String, Refusal> {
    let mut buffer = [FILL; 70];
    let answer = read_text(text.as_ref(), &mut buffer);
    if answer != Answer::done() {
        let refusal = refusal_of(answer);
        assert_eq!(buffer, [FILL; 70]);
        return Err(refusal);
    }
    let letters = buffer.iter().take_while(|byte| byte.is_ascii_alphabetic());
    let letters: Vec<u8> = letters.copied().collect();
    assert_eq!(buffer[..64], record(&letters));
    assert_eq!(buffer[64..], [FILL; 6]);
    Ok(String::from_utf8(letters).expect("letters are text"))
}

/// The refusal that an answer carries, and nothing else.
fn refusal_of(answer: Answer) -> Refusal {
    let Answer { number, place, .. } = answer;
    let refusal = Refusal { number, place };
    assert_eq!(answer, Answer::refused(refusal));
    refusal
}

/// The text that letters are written as, after a look that nothing else is written.
fn written(letters: impl AsRef<[u8]>) -> String {
    let mut buffer = [FILL; 260];
    let (answer, length) = write_text(&record(letters), &mut buffer);
    assert_eq!(answer, Answer::done());
    let (text, rest) = buffer.split_at(length as usize);
    assert!(rest.iter().all(|&byte| byte == FILL));
    String::from_utf8(text.to_vec()).expect("a text")
}

/// The outcome of refusal 12.
fn too_long() -> Result<String, Refusal> {
    Err(Refusal::new(WORD_TOO_LONG, 0))
}

/// All texts and words of the sheets.
#[test]
fn sheets() {
    for (text, letters) in READ {
        assert_eq!(read(text), Ok(letters.to_string()), "{text}");
    }
    for (text, refusal) in REFUSED {
        assert_eq!(read(text), Err(refusal), "{text}");
    }
    for (letters, text) in WRITTEN {
        assert_eq!(written(letters), text, "{letters}");
    }
}

/// A word buffer of less than 64 bytes is refused after 16, 17 and 18 and before 12.
#[test]
fn short_word_buffers() {
    let short = Refusal::new(WORDS_BUFFER_SHORT, 0);
    for length in 0..64 {
        let mut buffer = vec![FILL; length];
        for (text, _) in READ {
            let answer = read_text(text.as_bytes(), &mut buffer);
            assert_eq!(refusal_of(answer), short, "{text}");
        }
        for (text, refusal) in REFUSED {
            let expected = match refusal.number {
                WORD_TOO_LONG => short,
                _ => refusal,
            };
            let answer = read_text(text.as_bytes(), &mut buffer);
            assert_eq!(refusal_of(answer), expected, "{text}");
        }
        assert_eq!(buffer, vec![FILL; length]);
    }
}

/// Texts of 256 bytes are read, longer ones are refused at 0 whatever they hold.
#[test]
fn lengths() {
    for length in 0..300 {
        let well_formed = "aA".repeat(150)[..length].to_string();
        let open = "(".repeat(length);
        let deep = "(".repeat(length / 2) + &")".repeat(length / 2);
        let malformed = "?".repeat(length);
        if length > LONGEST_TEXT {
            let expected = Err(Refusal::new(TEXT_MALFORMED, 0));
            for text in [well_formed, open, malformed] {
                assert_eq!(read(text), expected);
            }
            continue;
        }
        assert_eq!(read(well_formed), Ok("a".repeat(length % 2)));
        if length > 0 {
            assert_eq!(read(open), Err(Refusal::new(TEXT_MALFORMED, length)));
            assert_eq!(read(malformed), Err(Refusal::new(TEXT_MALFORMED, 0)));
        }
        if length / 2 > DEEPEST {
            assert_eq!(read(deep), Err(Refusal::new(NESTING_TOO_DEEP, DEEPEST)));
        }
    }
}

/// Every byte that is no letter and no other sign of texts is malformed where it stands.
#[test]
fn other_bytes() {
    for byte in 0..=u8::MAX {
        if byte.is_ascii_alphanumeric() || b"()[,]^-".contains(&byte) {
            continue;
        }
        for (before, after) in [("", ""), ("a", "b"), ("a^", "1"), ("a^1", ""), ("[a,", "]")] {
            let text = [before.as_bytes(), &[byte], after.as_bytes()].concat();
            let expected = Err(Refusal::new(TEXT_MALFORMED, before.len()));
            assert_eq!(read(text), expected, "{byte}");
        }
    }
}

/// The free reduction of a row of any length, or refusal 12.
fn reduced(row: &str) -> Result<String, Refusal> {
    let mut room = vec![0; row.len()];
    let length = free_reduction(row.as_bytes(), &mut room);
    if length > LONGEST {
        return too_long();
    }
    room.truncate(length);
    Ok(String::from_utf8(room).expect("letters are text"))
}

/// Every exponent of one or two digits, with and without a minus sign, on a letter, a group and a
/// bracket.
#[test]
fn exponents() {
    for (factor, letters, inverse) in [
        ("a", "a", "A"),
        ("B", "B", "b"),
        ("(aBA)", "aBA", "abA"),
        ("(ab)", "ab", "BA"),
        ("[,b]", "", ""),
        ("[a,b]", "ABab", "BAba"),
    ] {
        for size in 0..100 {
            for (sign, letters) in [("", letters), ("-", inverse)] {
                let expected = match size {
                    0..=63 => reduced(&letters.repeat(size)),
                    _ => Err(Refusal::new(EXPONENT_OUT_OF_RANGE, factor.len())),
                };
                for exponent in [format!("{size}"), format!("{size:02}")] {
                    let text = format!("{factor}^{sign}{exponent}");
                    assert_eq!(read(&text), expected, "{text}");
                }
            }
        }
    }
}

/// The first opening sign of a well-formed text before which eight others are not closed yet.
fn first_ninth_sign(text: &[u8]) -> Option<usize> {
    let mut open = 0;
    text.iter().position(|sign| {
        match sign {
            b'(' | b'[' => open += 1,
            b')' | b']' => open -= 1,
            _ => {}
        }
        open > 8
    })
}

/// The first caret of a well-formed text after which a number over 63 stands, whatever its sign.
fn first_great_number(text: &[u8]) -> Option<usize> {
    (0..text.len()).find(|&place| {
        let digits = text[place + 1..].iter().skip_while(|&&sign| sign == b'-');
        let digits = digits.take_while(|sign| sign.is_ascii_digit());
        let number = digits.fold(0, |number, digit| 10 * number + u32::from(digit - b'0'));
        text[place] == b'^' && number > 63
    })
}

/// Groups and brackets in every mixture, up to ten deep, are refused just where a ninth sign opens.
#[test]
fn nesting() {
    for depth in 0..=10 {
        for kinds in 0..1 << depth {
            let mut text = String::from("a");
            for level in 0..depth {
                text = match kinds >> level & 1 {
                    0 => format!("({text})"),
                    _ if level % 2 == 0 => format!("[{text},c]^0"),
                    _ => format!("[c,{text}]^0"),
                };
            }
            let outcome = read(&text);
            match first_ninth_sign(text.as_bytes()) {
                Some(place) => {
                    assert!(depth > DEEPEST);
                    let expected = Err(Refusal::new(NESTING_TOO_DEEP, place));
                    assert_eq!(outcome, expected, "{text}");
                }
                None => assert!(depth <= DEEPEST && outcome.is_ok(), "{text}"),
            }
        }
    }
}

/// Refusals 17 and 18 of random texts are those that counting the signs gives.
#[test]
fn signs_counted() {
    let mut random = Random::new(42);
    let mut counts = [0; 4];
    for round in 0..20_000 {
        let text = random.text([1, 2, 3, 26][round % 4], round % 11);
        if text.len() > LONGEST_TEXT {
            continue;
        }
        let outcome = read(&text);
        if let Some(place) = first_ninth_sign(&text) {
            assert_eq!(outcome, Err(Refusal::new(NESTING_TOO_DEEP, place)));
            counts[0] += 1;
        } else if let Some(place) = first_great_number(&text) {
            assert_eq!(outcome, Err(Refusal::new(EXPONENT_OUT_OF_RANGE, place)));
            counts[1] += 1;
        } else if outcome.is_ok() {
            counts[2] += 1;
        } else {
            assert_eq!(outcome, too_long());
            counts[3] += 1;
        }
    }
    assert!(counts.iter().all(|&count| count > 1000), "{counts:?}");
}

/// The commutator of two powers of a and b.
fn commutator_of_powers(a: usize, b: usize) -> String {
    ["A".repeat(a), "B".repeat(b), "a".repeat(a), "b".repeat(b)].concat()
}

/// Values of 63 letters are read and values of 64 are refused: of factors without and with their
/// powers, of beginnings of products, and of all these inside a group and inside a bracket.
#[test]
fn values_about_63_letters_long() {
    let there = "abc".repeat(21);
    let back = "CBA".repeat(21);
    for (text, outcome) in [
        (there.clone(), Ok(there.clone())),
        (format!("{there}a"), too_long()),
        (format!("({there}a)"), too_long()),
        (format!("{there}a{back}"), too_long()),
        (format!("{there}Cc{back}"), Ok(String::new())),
        (format!("({there})(){back}"), Ok(String::new())),
        (format!("({there}aA)^0"), too_long()),
        (format!("[{there},]"), Ok(String::new())),
        (format!("[{there}a,]"), too_long()),
        (format!("[,{there}aA]"), too_long()),
        (format!("[{there},({there})^-1]"), Ok(String::new())),
        (format!("[{there},b]^0"), too_long()),
    ] {
        assert_eq!(read(&text), outcome, "{text}");
    }
    for (text, letters) in [
        ("a^63", "a".repeat(63)),
        ("(ab)^31a", "ab".repeat(31) + "a"),
        ("(a^3)^-21", "A".repeat(63)),
        ("(a^3bA^3)^57", format!("aaa{}AAA", "b".repeat(57))),
        ("[a^16,b^15]", commutator_of_powers(16, 15)),
        ("[a,b]^15ABa", "ABab".repeat(15) + "ABa"),
    ] {
        assert_eq!(read(text), Ok(letters), "{text}");
    }
    for text in [
        "(ab)^32",
        "(ab)^31ab",
        "(a^4)^16",
        "(a^3bA^3)^58",
        "[a^16,b^16]",
        "[a,b]^16",
        "[a,b]^16[b,a]^16",
        "a^32a^32",
        "(((a^32)^2)^0)^0",
        "[[a^32a^32,],]",
        "b[,(a^8)^8]",
    ] {
        assert_eq!(read(text), too_long(), "{text}");
    }
}

/// Of two kinds of trouble the one that is tested first is told, whichever stands first in the text.
#[test]
fn two_kinds_of_trouble() {
    let in_order_of_tests = [
        ("a^1^2", Refusal::new(TEXT_MALFORMED, 3)),
        ("((((((((([,])))))))))", Refusal::new(NESTING_TOO_DEEP, 8)),
        ("b^-64", Refusal::new(EXPONENT_OUT_OF_RANGE, 1)),
        ("c^63c", Refusal::new(WORD_TOO_LONG, 0)),
    ];
    for (test, (first, refusal)) in in_order_of_tests.iter().enumerate() {
        for (other_test, (second, other)) in in_order_of_tests.iter().enumerate() {
            let expected = if test <= other_test {
                *refusal
            } else {
                let place = other.place as usize + first.len();
                Refusal::new(other.number, place)
            };
            let text = format!("{first}{second}");
            assert_eq!(read(&text), Err(expected), "{text}");
        }
    }
}

/// The writer refuses a malformed record before a text buffer of less than 256 bytes, gives no length
/// and writes nothing.
#[test]
fn refusals_of_the_writer() {
    let sound = record("aab");
    let mut cases = vec![
        (Vec::new(), 0),
        (sound[1..].to_vec(), 0),
        (sound.repeat(2), 0),
    ];
    for (place, byte) in [(63, b'.'), (0, b'^'), (9, b'a'), (62, 0)] {
        let mut damaged = sound.to_vec();
        damaged[place] = byte;
        cases.push((damaged, place));
    }
    for room in 0..300 {
        let mut buffer = vec![FILL; room];
        for (word, place) in &cases {
            let (answer, length) = write_text(word, &mut buffer);
            let expected = Refusal::new(TARGET_OR_PRODUCT_MALFORMED, *place);
            assert_eq!((refusal_of(answer), length), (expected, 0));
        }
        assert_eq!(buffer, vec![FILL; room]);
        let (answer, length) = write_text(&sound, &mut buffer);
        if room < LONGEST_TEXT {
            let expected = Refusal::new(WORDS_BUFFER_SHORT, 0);
            assert_eq!((refusal_of(answer), length), (expected, 0));
            assert_eq!(buffer, vec![FILL; room]);
        } else {
            assert_eq!((answer, length), (Answer::done(), 4));
            assert_eq!(buffer[..4], *b"a^2b");
            assert_eq!(buffer[4..], vec![FILL; room - 4]);
        }
    }
}

/// Checks that the text of letters is read back as what they freely reduce to, and gives its length.
fn read_back(letters: &[u8]) -> usize {
    let text = written(letters);
    let word = Word::freely_reduced(letters);
    let expected = String::from_utf8_lossy(word.letters()).into_owned();
    assert_eq!(read(&text), Ok(expected), "{text}");
    text.len()
}

/// The text of a word is read back as the word where that is freely reduced, and else as what it
/// freely reduces to; the longest text has 125 bytes.
#[test]
fn written_and_read_back() {
    for letters in small::rows(2, 5) {
        read_back(&letters);
    }
    let mut random = Random::new(43);
    for round in 0..5000 {
        let kind = Kind::ALL[round % 3];
        let length = random.below(LONGEST + 1);
        read_back(&random.letters(kind, 1 + round % 4, length));
        read_back(&random.letters_in_runs(4, length));
    }
    for letter in *b"aAmMzZ" {
        for length in 0..=LONGEST {
            read_back(&vec![letter; length]);
        }
    }
    let pairs = "AABB".repeat(16);
    assert_eq!(read_back(&pairs.as_bytes()[..LONGEST]), 125);
}
