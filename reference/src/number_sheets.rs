//! Words with their numbers, rows of numbers with what they are tidied to, and systems of numbers that are
//! refused, as data for the tests and for the comparison.

use crate::numbers::NUMBERS;
use crate::refusals::*;
use crate::words::LONGEST;

/// The records of a system of numbers, each without zeros at its end.
type Rows = &'static [&'static [i16]];

/// The refusal of a number at this place that breaks the layout of its record.
const fn malformed(place: usize) -> Refusal {
    Refusal::new(NUMBERS_MALFORMED, place)
}

/// The refusal of a number at this place that has no letter.
const fn without_letter(place: usize) -> Refusal {
    Refusal::new(NUMBER_WITHOUT_LETTER, place)
}

/// Zeros up to the last number, which is not zero.
const LAST_ALONE: [i16; NUMBERS] = {
    let mut row = [0; NUMBERS];
    row[LONGEST] = -1;
    row
};

/// Words, not all of them freely reduced, with their numbers.
pub const NUMBERED: [(&str, &[i16]); 13] = [
    ("", &[]),
    ("a", &[1]),
    ("A", &[-1]),
    ("z", &[26]),
    ("Z", &[-26]),
    ("aBc", &[1, -2, 3]),
    ("aAbBc", &[1, -1, 2, -2, 3]),
    ("zZ", &[26, -26]),
    ("mnMN", &[13, 14, -13, -14]),
    (
        "abcdefghijklmnopqrstuvwxyz",
        &[
            1, 2, 3, 4, 5, 6, 7, 8, 9, 10, 11, 12, 13, 14, 15, 16, 17, 18, 19, 20, 21, 22, 23, 24,
            25, 26,
        ],
    ),
    (
        "ABCDEFGHIJKLMNOPQRSTUVWXYZ",
        &[
            -1, -2, -3, -4, -5, -6, -7, -8, -9, -10, -11, -12, -13, -14, -15, -16, -17, -18, -19,
            -20, -21, -22, -23, -24, -25, -26,
        ],
    ),
    (
        "zzzzzzzzzzzzzzzzzzzzzzzzzzzzzzzzzzzzzzzzzzzzzzzzzzzzzzzzzzzzzzz",
        &[26; LONGEST],
    ),
    (
        "AAAAAAAAAAAAAAAAAAAAAAAAAAAAAAAAAAAAAAAAAAAAAAAAAAAAAAAAAAAAAAA",
        &[-1; LONGEST],
    ),
];

/// Rows of numbers with what they freely reduce to.
pub const TIDIED: [(&[i16], &[i16]); 18] = [
    (&[], &[]),
    (&[1], &[1]),
    (&[1000], &[1000]),
    (&[-1000], &[-1000]),
    (&[1, -1, 2, -2, 3], &[3]),
    (&[300, -300], &[]),
    (&[-300, 300], &[]),
    (&[300, 300], &[300, 300]),
    (&[300, -301], &[300, -301]),
    (&[1000, -1000, 7], &[7]),
    (&[7, -1000, 1000], &[7]),
    (&[27, 500, -500, -27], &[]),
    (&[27, 500, -500, 27], &[27, 27]),
    (&[5, -5, 5], &[5]),
    (&[1, 256, -256, -1, 255], &[255]),
    (&[255, -1, 256, -512], &[255, -1, 256, -512]),
    (&[1, -257, 257, 1], &[1, 1]),
    (&[999; LONGEST], &[999; LONGEST]),
];

/// Systems of numbers that from_numbers refuses: the refusal that tidy_numbers gives, if it gives one, and
/// that of from_numbers.
pub const REFUSED: [(Rows, Option<Refusal>, Refusal); 37] = [
    (&[&[1001]], Some(malformed(0)), malformed(0)),
    (&[&[-1001]], Some(malformed(0)), malformed(0)),
    (&[&[i16::MAX]], Some(malformed(0)), malformed(0)),
    (&[&[i16::MIN]], Some(malformed(0)), malformed(0)),
    (&[&[-26, 1001]], Some(malformed(2)), malformed(2)),
    (&[&[3, -3, -32_768]], Some(malformed(4)), malformed(4)),
    (&[&[1000, 1001]], Some(malformed(2)), malformed(2)),
    (&[&[0, 1]], Some(malformed(2)), malformed(2)),
    (&[&[1, 0, 2]], Some(malformed(4)), malformed(4)),
    (&[&[1, 0, 0, -2, 3]], Some(malformed(6)), malformed(6)),
    (&[&[1, 0, 1001]], Some(malformed(4)), malformed(4)),
    (&[&[1, 1001, 0, 1]], Some(malformed(2)), malformed(2)),
    (&[&[1; NUMBERS]], Some(malformed(126)), malformed(126)),
    (&[&LAST_ALONE], Some(malformed(126)), malformed(126)),
    (&[&[], &[1; NUMBERS]], Some(malformed(254)), malformed(254)),
    (&[&[2], &[2, 0, 2]], Some(malformed(132)), malformed(132)),
    (
        &[&[], &[1, -1], &[1001]],
        Some(malformed(256)),
        malformed(256),
    ),
    (&[&[27]], None, without_letter(0)),
    (&[&[-27]], None, without_letter(0)),
    (&[&[1000]], None, without_letter(0)),
    (&[&[-1000]], None, without_letter(0)),
    (&[&[26, -26, 27]], None, without_letter(4)),
    (&[&[1, 27, -27]], None, without_letter(2)),
    (&[&[300, -300]], None, without_letter(0)),
    (&[&[], &[3, -256]], None, without_letter(130)),
    (&[&[26], &[-26], &[257]], None, without_letter(256)),
    (&[&[27, 1001]], Some(malformed(2)), malformed(2)),
    (&[&[27, 0, 1]], Some(malformed(4)), malformed(4)),
    (&[&[27, -27, 28, 0, 27]], Some(malformed(8)), malformed(8)),
    (&[&[27; NUMBERS]], Some(malformed(126)), malformed(126)),
    (&[&[1001, 27]], Some(malformed(0)), malformed(0)),
    (&[&[27], &[1001]], Some(malformed(128)), without_letter(0)),
    (
        &[&[1], &[2, 27], &[0, 1]],
        Some(malformed(258)),
        without_letter(130),
    ),
    (
        &[&[1], &[2, -28], &[3; NUMBERS]],
        Some(malformed(382)),
        without_letter(130),
    ),
    (&[&[1001], &[27]], Some(malformed(0)), malformed(0)),
    (
        &[&[1, -1], &[1, 0, 1], &[27]],
        Some(malformed(132)),
        malformed(132),
    ),
    (
        &[&[27, 1001], &[27], &[1001]],
        Some(malformed(2)),
        malformed(2),
    ),
];
