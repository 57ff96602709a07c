//! Tests of the calls on numbers: the sheets, every refusal with its place and their order, and there and
//! back, back and there, and tidying on both forms.

use crate::answers::Answer;
use crate::number_sheets::{NUMBERED, REFUSED, TIDIED};
use crate::numbers::{record_of_numbers, system_of_numbers, NUMBERS};
use crate::random::{Kind, Random};
use crate::random_numbers::LARGEST_GENERATORS;
use crate::records::{record, system};
use crate::refusals::*;
use crate::{from_numbers, tidy, tidy_numbers, to_numbers};

const FILL: u8 = 0xEE;

/// A call with one input and one buffer.
type Call = fn(&[u8], &mut [u8]) -> Answer;

/// The answer of a refusal.
fn refused(number: u64, place: usize) -> Answer {
    Answer::refused(Refusal::new(number, place))
}

/// What a call writes into a buffer of this length, after a look that the call is done and writes nothing
/// beside, in a longer buffer.
fn written(call: Call, input: &[u8], length: usize) -> Vec<u8> {
    let mut buffer = vec![FILL; length + 5];
    assert_eq!(call(input, &mut buffer), Answer::done());
    let (written, rest) = buffer.split_at(length);
    assert_eq!(rest, [FILL; 5]);
    let mut buffer = vec![FILL; length];
    assert_eq!(call(input, &mut buffer), Answer::done());
    assert_eq!(buffer, written);
    buffer
}

/// Checks that a call is refused like this, with every kind of buffer, and writes nothing.
fn check_refused(call: Call, input: &[u8], refusal: Refusal) {
    for length in [0, 1, 64, 4096] {
        let mut buffer = vec![FILL; length];
        assert_eq!(call(input, &mut buffer), Answer::refused(refusal));
        assert_eq!(buffer, vec![FILL; length]);
    }
}

/// The numbers of a system of words.
fn numbers_of(words: &[u8]) -> Vec<u8> {
    written(to_numbers, words, 2 * words.len())
}

/// The words of a system of numbers.
fn words_of(numbers: &[u8]) -> Vec<u8> {
    written(from_numbers, numbers, numbers.len() / 2)
}

/// A system of words after tidy.
fn tidied(words: &[u8]) -> Vec<u8> {
    written(tidy, words, words.len())
}

/// A system of numbers after tidy_numbers.
fn tidied_numbers(numbers: &[u8]) -> Vec<u8> {
    written(tidy_numbers, numbers, numbers.len())
}

/// Words with their numbers, each alone and all in one system, there and back.
#[test]
fn words_there_and_back() {
    for (letters, numbers) in NUMBERED {
        assert_eq!(
            numbers_of(&record(letters)),
            record_of_numbers(numbers),
            "{letters}"
        );
        assert_eq!(
            words_of(&record_of_numbers(numbers)),
            record(letters),
            "{letters}"
        );
    }
    let words = system(&NUMBERED.map(|(letters, _)| letters));
    let numbers = system_of_numbers(&NUMBERED.map(|(_, numbers)| numbers));
    assert_eq!(numbers_of(&words), numbers);
    assert_eq!(words_of(&numbers), words);
    assert_eq!(numbers_of(&[]), []);
    assert_eq!(words_of(&[]), []);
    let most = words.repeat(2);
    assert_eq!(words_of(&numbers_of(&most[..1024])), &most[..1024]);
}

/// The bytes of a record, the low byte of each number first.
#[test]
fn bytes_of_a_record() {
    let mut expected = [0; 128];
    expected[..10].copy_from_slice(&[1, 0, 0xFF, 0xFF, 2, 0, 0xFE, 0xFF, 3, 0]);
    assert_eq!(numbers_of(&record("aAbBc")), expected);
    assert_eq!(words_of(&expected), record("aAbBc"));
    assert_eq!(tidied_numbers(&expected)[..4], [3, 0, 0, 0]);
    expected[..10].copy_from_slice(&[26, 0, 0xE6, 0xFF, 0xE8, 3, 0x18, 0xFC, 0x2C, 1]);
    let numbers = [26, -26, 1000, -1000, 300];
    assert_eq!(expected, record_of_numbers(numbers));
    assert_eq!(tidied_numbers(&expected)[..4], [0x2C, 1, 0, 0]);
    check_refused(
        from_numbers,
        &expected,
        Refusal::new(NUMBER_WITHOUT_LETTER, 4),
    );
    expected[4] = 0xE9;
    for call in [from_numbers, tidy_numbers] {
        check_refused(call, &expected, Refusal::new(NUMBERS_MALFORMED, 4));
    }
}

/// Every letter and capital has its number.
#[test]
fn every_letter() {
    for (letter, number) in (b'a'..=b'z').zip(1..) {
        for (letter, number) in [(letter, number), (letter.to_ascii_uppercase(), -number)] {
            assert_eq!(numbers_of(&record([letter])), record_of_numbers([number]));
            assert_eq!(words_of(&record_of_numbers([number])), record([letter]));
        }
    }
}

/// Rows with what they are tidied to, each alone and all in one system.
#[test]
fn tidied_rows() {
    for (row, expected) in TIDIED {
        assert_eq!(
            tidied_numbers(&record_of_numbers(row)),
            record_of_numbers(expected),
            "{row:?}"
        );
    }
    for rows in TIDIED.chunks(16) {
        let given: Vec<&[i16]> = rows.iter().map(|(row, _)| *row).collect();
        let expected: Vec<&[i16]> = rows.iter().map(|(_, tidied)| *tidied).collect();
        let tidied = tidied_numbers(&system_of_numbers(&given));
        assert_eq!(tidied, system_of_numbers(&expected));
    }
    assert_eq!(tidied_numbers(&[]), []);
}

/// The systems that are refused, whatever buffer is lent.
#[test]
fn refused_systems() {
    for (rows, of_tidy, of_from) in REFUSED {
        let numbers = system_of_numbers(rows);
        check_refused(from_numbers, &numbers, of_from);
        match of_tidy {
            Some(refusal) => check_refused(tidy_numbers, &numbers, refusal),
            None => assert_eq!(tidied_numbers(&numbers).len(), numbers.len()),
        }
    }
}

/// The refusals of a row of numbers by tidy_numbers and by from_numbers, number after number.
fn refusals_of_row(row: &[i16; NUMBERS]) -> [Option<Refusal>; 2] {
    let mut beyond = None;
    for (index, &number) in row.iter().enumerate() {
        let after_a_zero = row[..index].contains(&0);
        let out_of_range = number.unsigned_abs() > 1000;
        if out_of_range || number != 0 && (after_a_zero || index == 63) {
            let malformed = Some(Refusal::new(NUMBERS_MALFORMED, 2 * index));
            return [malformed; 2];
        }
        if !(-26..=26).contains(&number) && beyond.is_none() {
            beyond = Some(Refusal::new(NUMBER_WITHOUT_LETTER, 2 * index));
        }
    }
    [None, beyond]
}

/// Checks the answers of tidy_numbers and of from_numbers to a row.
fn check_row(row: &[i16; NUMBERS]) {
    let record = record_of_numbers(row);
    let answers = [tidy_numbers, from_numbers].map(|call| call(&record, &mut [FILL; 128]));
    let answer = |refusal: Option<Refusal>| refusal.map_or(Answer::done(), Answer::refused);
    assert_eq!(answers, refusals_of_row(row).map(answer), "{row:?}");
}

/// Telling numbers at every place of a blank, a short and a full row, and all numbers at a few places.
#[test]
fn every_number() {
    let telling = [
        -1001, -1000, -27, -26, -1, 0, 1, 26, 27, 255, 256, 1000, 1001,
    ];
    let mut short = [0; NUMBERS];
    short[..32].fill(-26);
    let mut full = [26; NUMBERS];
    full[63] = 0;
    for mut row in [[0; NUMBERS], short, full] {
        for index in 0..NUMBERS {
            let given = row[index];
            for number in telling {
                row[index] = number;
                check_row(&row);
            }
            row[index] = given;
        }
    }
    for index in [0, 32, 62, 63] {
        let given = short[index];
        for number in i16::MIN..=i16::MAX {
            short[index] = number;
            check_row(&short);
        }
        short[index] = given;
    }
}

/// Refusals 2 and 1 at every length to 2,300, and 2 before 1 and both before 19 and 20.
#[test]
fn lengths() {
    let sound = record_of_numbers([1, -26]).repeat(18);
    let mut malformed = sound.clone();
    malformed[..128].copy_from_slice(&record_of_numbers([1001]));
    let mut beyond = sound.clone();
    beyond[..128].copy_from_slice(&record_of_numbers([27]));
    for numbers in [sound, malformed, beyond] {
        for length in 0..=2300 {
            let numbers = &numbers[..length];
            for call in [from_numbers, tidy_numbers] {
                let answer = call(numbers, &mut [FILL; 2048]);
                if length > 2048 {
                    check_refused(call, numbers, Refusal::new(SYSTEM_TOO_LONG, 0));
                } else if !length.is_multiple_of(128) {
                    check_refused(call, numbers, Refusal::new(SYSTEM_UNEVEN, 0));
                } else {
                    let of_length = [SYSTEM_UNEVEN, SYSTEM_TOO_LONG].contains(&answer.number);
                    assert!(!of_length, "{length}");
                }
            }
        }
    }
}

/// Refusal 10 by the size of the record that is written, after all others.
#[test]
fn short_buffers() {
    let words = system(&["a", "b", "aA"]);
    let numbers = system_of_numbers(&[&[1], &[2], &[1, -1]]);
    let sizes: [(Call, &[u8], usize); 3] = [
        (to_numbers, &words, 384),
        (from_numbers, &numbers, 192),
        (tidy_numbers, &numbers, 384),
    ];
    for (call, input, needed) in sizes {
        for length in 0..needed {
            let mut buffer = vec![FILL; length];
            assert_eq!(call(input, &mut buffer), refused(WORDS_BUFFER_SHORT, 0));
            assert_eq!(buffer, vec![FILL; length]);
        }
        assert_eq!(written(call, input, needed).len(), needed);
    }
    let mut damaged = words;
    damaged[129] = b'?';
    let refusal = Refusal::new(NEITHER_LETTER_NOR_STOP, 129);
    check_refused(to_numbers, &damaged, refusal);
    for (last, number) in [(27, NUMBER_WITHOUT_LETTER), (1001, NUMBERS_MALFORMED)] {
        let numbers = system_of_numbers(&[&[1], &[2], &[1, last]]);
        check_refused(from_numbers, &numbers, Refusal::new(number, 258));
    }
}

/// There and back and back and there give the same bytes, and tidying gives the same in both forms.
#[test]
fn both_forms() {
    let mut random = Random::new(21);
    for round in 0..3000 {
        let generators = [1, 2, 3, 5, 26][round % 5];
        let kind = Kind::ALL[round % 3];
        let records = random.below(17);
        let words = random.system(kind, generators, records, 0, 63);
        let numbers = numbers_of(&words);
        assert_eq!(words_of(&numbers), words);
        assert_eq!(numbers_of(&tidied(&words)), tidied_numbers(&numbers));
        let numbers = random.system_of_numbers(26);
        let words = words_of(&numbers);
        assert_eq!(numbers_of(&words), numbers);
        assert_eq!(words_of(&tidied_numbers(&numbers)), tidied(&words));
    }
}

/// The row left after taking out one cancelling pair after another, the last first.
fn by_removing_pairs(row: &[i16]) -> Vec<i16> {
    let mut rest = row.to_vec();
    while let Some(index) = (1..rest.len())
        .rev()
        .find(|&index| rest[index - 1] + rest[index] == 0)
    {
        rest.drain(index - 1..=index);
    }
    rest
}

/// Tidying does not depend on the order of removal, and what is tidied stays as it is.
#[test]
fn tidying_in_another_order() {
    let mut random = Random::new(22);
    for round in 0..5000 {
        let largest = LARGEST_GENERATORS[round % 5];
        let generators = random.generators(1 + round % 4, largest);
        let length = random.below(64);
        let row = random.row(Kind::Cancelling, &generators, length);
        let once = tidied_numbers(&record_of_numbers(&row));
        assert_eq!(once, record_of_numbers(by_removing_pairs(&row)));
        assert_eq!(tidied_numbers(&once), once);
    }
}
