//! Texts for the comparison of the reader: the sheets, sound and spoiled, all short texts, every byte at
//! every kind of place, nesting of every kind, and several kinds of trouble at once.

use crate::inputs::every_byte;
use subgroups_reference::random_text::TEXT_SIGNS;
use subgroups_reference::read_text::DEEPEST;
use subgroups_reference::text_sheets::{READ, REFUSED};

/// What stands before and after a byte where a factor, a power, a digit, a comma, a closing sign or the
/// end is wanted.
const PLACES: [(&str, &str); 28] = [
    ("", ""),
    ("", "a"),
    ("", "^2"),
    ("a", ""),
    ("a", "b"),
    ("a", "2"),
    ("a^", ""),
    ("a^", "2"),
    ("a^-", ""),
    ("a^-", "1b"),
    ("a^1", ""),
    ("a^1", "b"),
    ("a^-12", ""),
    ("a^12", "(b)"),
    ("(", ")"),
    ("(", "a)"),
    ("(a", ")"),
    ("(a", "b)"),
    ("(a)", ""),
    ("(a)^", ""),
    ("[", "a,b]"),
    ("[a", ",b]"),
    ("[a", "b]"),
    ("[a,", "]"),
    ("[a,b", "]"),
    ("[a,b]", ""),
    ("[a,b]^-", ""),
    ("[(a", "),b]"),
];

/// Pieces without trouble and with each kind of it.
const PIECES: [&str; 15] = [
    "",
    "a",
    "(ab)^-3",
    "[a,b]",
    "a^63a",
    "(b^60c^5)^0",
    "[a^16,b^16]",
    "c^64",
    "()^-99",
    "(((((((((a)))))))))",
    "[[[[[[[[[,],],],],],],],],]",
    "(((((((([c^64,]))))))))",
    "a^1^2",
    "[a]",
    "?",
];

/// The texts of the sheets, those that are read and those that are refused.
pub fn sheet_texts() -> impl Iterator<Item = &'static str> {
    let read = READ.iter().map(|(text, _)| *text);
    read.chain(REFUSED.iter().map(|(text, _)| *text))
}

/// The text made longer, to this length where it can be, by empty groups and an empty bracket.
pub fn padded(text: &[u8], length: usize) -> Vec<u8> {
    let missing = length.saturating_sub(text.len());
    let (bracket, groups) = match missing % 2 {
        1 => ("[,]", missing.saturating_sub(3) / 2),
        _ => ("", missing / 2),
    };
    [text, bracket.as_bytes(), "()".repeat(groups).as_bytes()].concat()
}

/// Lends every text of up to five signs of a few kinds.
pub fn for_each_short_text(mut lend: impl FnMut(&[u8])) {
    lend(b"");
    let mut of_last_length = vec![Vec::new()];
    for _ in 0..5 {
        let mut longer = Vec::new();
        for text in &of_last_length {
            for &sign in b"aB()[,]^-027" {
                longer.push([&text[..], &[sign]].concat());
            }
        }
        for text in &longer {
            lend(text);
        }
        of_last_length = longer;
    }
}

/// Lends texts with every byte at every kind of place, the 256th and the 257th of a text among them.
pub fn for_each_byte_at_a_place(mut lend: impl FnMut(&[u8])) {
    let full = "aA".repeat(128);
    let long = [(&full[..255], ""), (&full[..], "")];
    for (before, after) in PLACES.into_iter().chain(long) {
        for byte in every_byte() {
            lend(&[before.as_bytes(), &[byte], after.as_bytes()].concat());
        }
    }
}

/// Lends the texts of the sheets with each sign taken out, and another put in its place or before it.
pub fn for_each_spoiled_sheet(mut lend: impl FnMut(&[u8])) {
    for text in sheet_texts() {
        for place in 0..=text.len() {
            let (before, after) = text.as_bytes().split_at(place);
            for &sign in TEXT_SIGNS {
                lend(&[before, &[sign], after].concat());
                if let Some((_, after)) = after.split_first() {
                    lend(&[before, &[sign], after].concat());
                }
            }
            if let Some((_, after)) = after.split_first() {
                lend(&[before, after].concat());
            }
        }
    }
}

/// Lends groups and brackets in every mixture up to 11 deep, alone and beside others, closed and not.
pub fn for_each_nesting(mut lend: impl FnMut(&[u8])) {
    for depth in 0..=DEEPEST + 3 {
        for kinds in 0..1 << depth {
            let mut text = String::from("a");
            for level in 0..depth {
                text = match kinds >> level & 1 {
                    0 => format!("({text})"),
                    _ if level % 2 == 0 => format!("[{text},b]"),
                    _ => format!("[b,{text}]^0"),
                };
            }
            for text in [
                format!("((a)[a,((b))]){text}"),
                format!("a{text}^64"),
                format!("{text})"),
                text[..text.len() - 1].to_string(),
                text,
            ] {
                lend(text.as_bytes());
            }
        }
    }
}

/// Lends pieces with and without trouble in every order of three, in and out of groups and brackets.
pub fn for_each_trouble(mut lend: impl FnMut(&[u8])) {
    for one in PIECES {
        for two in PIECES {
            for three in PIECES {
                for text in [
                    format!("{one}{two}{three}"),
                    format!("{one}({two}{three})^65"),
                    format!("[{one}{two},{three}]"),
                    format!("{one}[{two}({three})"),
                ] {
                    lend(text.as_bytes());
                }
            }
        }
    }
}
