//! Texts with what the reader makes of them and words with what the writer makes of them, as data for
//! the tests and for the comparison.

use crate::refusals::*;

/// The refusal of a text that is malformed at this place.
const fn malformed(place: usize) -> Refusal {
    Refusal::new(TEXT_MALFORMED, place)
}

/// The refusal of a text with an opening sign at this place that is nested too deep.
const fn too_deep(place: usize) -> Refusal {
    Refusal::new(NESTING_TOO_DEEP, place)
}

/// The refusal of a text with an exponent out of range after the caret at this place.
const fn out_of_range(place: usize) -> Refusal {
    Refusal::new(EXPONENT_OUT_OF_RANGE, place)
}

/// The refusal of a text in which something freely reduces to more than 63 letters.
const TOO_LONG: Refusal = Refusal::new(WORD_TOO_LONG, 0);

/// Texts that are read, with the letters of their records.
pub const READ: [(&str, &str); 44] = [
    ("", ""),
    ("a", "a"),
    ("Z", "Z"),
    ("abBA", ""),
    ("()", ""),
    ("[,]", ""),
    ("([,]())[(),([,])]", ""),
    ("(ab)^-3", "BABABA"),
    ("(ab)^3", "ababab"),
    ("[a,b]", "ABab"),
    ("[b,a]", "BAba"),
    ("[A,B]", "abAB"),
    ("[ab,c]", "BACabc"),
    ("[a,b]^-1", "BAba"),
    ("[a,b]^2", "ABabABab"),
    ("[[a,b],c]", "BAbaCABabc"),
    ("[a,[b,c]]", "ACBcbaBCbc"),
    ("[a,b][b,a]", ""),
    ("(ab)^-3[a,b]", "BABABAABab"),
    ("(ab)^2[a,b]^-1c", "abbac"),
    ("[ab,(ab)^-3]", ""),
    ("[,abc]", ""),
    ("a^0", ""),
    ("a^-0", ""),
    ("a^00", ""),
    ("a^-00", ""),
    ("a^07", "aaaaaaa"),
    ("a^-07", "AAAAAAA"),
    ("A^3", "AAA"),
    ("A^-2", "aa"),
    ("a^1", "a"),
    ("a^12b", "aaaaaaaaaaaab"),
    ("()^63", ""),
    ("(aA)^-63", ""),
    ("(a^3bA^3)^9", "aaabbbbbbbbbAAA"),
    ("(a(b(cd)^2)^-1)^0e", "e"),
    ("(a^2b)^-1", "BAA"),
    ("[a^63,a^63]", ""),
    ("[a^63,A^63]b", "b"),
    ("a^63A^63", ""),
    ("a^63b^0A^63", ""),
    ("((((((((a))))))))", "a"),
    ("[[[[[[[[a,],],],],],],],]", ""),
    ("([([([([a,b]),]),]),])", ""),
];

/// Texts that are refused.
pub const REFUSED: [(&str, Refusal); 75] = [
    (" ", malformed(0)),
    (",", malformed(0)),
    (")", malformed(0)),
    ("]", malformed(0)),
    ("-a", malformed(0)),
    ("2a", malformed(0)),
    ("^2", malformed(0)),
    ("a.", malformed(1)),
    ("a b", malformed(1)),
    ("ab\n", malformed(2)),
    ("a2", malformed(1)),
    ("a-1", malformed(1)),
    ("a)", malformed(1)),
    ("a,b", malformed(1)),
    ("(", malformed(1)),
    ("(a", malformed(2)),
    ("(a]", malformed(2)),
    ("(a,b)", malformed(2)),
    ("(^2)", malformed(1)),
    ("())", malformed(2)),
    ("[", malformed(1)),
    ("[]", malformed(1)),
    ("[a]", malformed(2)),
    ("[a)", malformed(2)),
    ("[a,", malformed(3)),
    ("[a,b", malformed(4)),
    ("[a,b)", malformed(4)),
    ("[a,b,c]", malformed(4)),
    ("[a,b]]", malformed(5)),
    ("[(a,b)]", malformed(3)),
    ("[a,^2]", malformed(3)),
    ("a^", malformed(2)),
    ("a^-", malformed(3)),
    ("a^+1", malformed(2)),
    ("a^--1", malformed(3)),
    ("a^1-", malformed(3)),
    ("a^b", malformed(2)),
    ("a^(2)", malformed(2)),
    ("a^ 1", malformed(2)),
    ("a^^2", malformed(2)),
    ("a^1^2", malformed(3)),
    ("()^2^3", malformed(4)),
    ("a^100", malformed(4)),
    ("a^-100", malformed(5)),
    ("a^000", malformed(4)),
    ("a^64(", malformed(5)),
    ("a^64^2", malformed(4)),
    ("a^63b)", malformed(5)),
    ("((((((((([", malformed(10)),
    ("(((((((((a))))))))", malformed(18)),
    ("(((((((((a))))))))))", malformed(19)),
    ("((((((((()))))))))", too_deep(8)),
    ("(((((((((a)))))))))", too_deep(8)),
    ("((((((((((a))))))))))", too_deep(8)),
    ("[[[[[[[[[,],],],],],],],],]", too_deep(8)),
    ("((((((((a[,]b))))))))", too_deep(9)),
    ("a((((((((ab)c)d(e(,)", malformed(18)),
    ("((((((((a))))))))(((((((((a)))))))))", too_deep(25)),
    ("a^64(((((((((a)))))))))", too_deep(12)),
    ("(((((((((a^64)))))))))", too_deep(8)),
    ("a^64", out_of_range(1)),
    ("a^-64", out_of_range(1)),
    ("a^99", out_of_range(1)),
    ("()^64", out_of_range(2)),
    ("[a,b^-99]^64", out_of_range(4)),
    ("(a^63)^64b^65", out_of_range(6)),
    ("a^63aa^64", out_of_range(6)),
    ("a^63a", TOO_LONG),
    ("a^63aA", TOO_LONG),
    ("(a^60b^5)^0", TOO_LONG),
    ("[a^63a,]", TOO_LONG),
    ("[a^16,b^16]", TOO_LONG),
    ("A^40(a^32)^2", TOO_LONG),
    ("a^16[a^16,b^16]", TOO_LONG),
    ("a^40(A^40A^40a^40)", TOO_LONG),
];

/// Words, not all of them freely reduced, with their texts.
pub const WRITTEN: [(&str, &str); 16] = [
    ("", ""),
    ("a", "a"),
    ("A", "A"),
    ("aa", "a^2"),
    ("AA", "a^-2"),
    ("AAA", "a^-3"),
    ("aA", "aA"),
    ("aAa", "aAa"),
    ("aaA", "a^2A"),
    ("aAA", "aa^-2"),
    ("aaAA", "a^2a^-2"),
    ("abab", "abab"),
    ("BABABA", "BABABA"),
    ("aabbbCCCCd", "a^2b^3c^-4d"),
    ("zzzzzzzzzZZZZZZZZZZ", "z^9z^-10"),
    ("xyyyyyyyyyyyzz", "xy^11z^2"),
];
