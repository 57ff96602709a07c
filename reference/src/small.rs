//! All short words and all small systems of them, for comparisons that leave out nothing.
//! Words are freely reduced, rows of letters need not be; both come in the order of their lengths.

use crate::records::record;
use crate::words::inverse_letter;

/// The letters and capitals of the first generators.
pub fn letters(generators: usize) -> Vec<u8> {
    let small = (b'a'..=b'z').take(generators);
    small
        .flat_map(|letter| [letter, inverse_letter(letter)])
        .collect()
}

/// All freely reduced words over the first generators, up to a length.
pub fn words(generators: usize, longest: usize) -> Vec<Vec<u8>> {
    longer_rows(generators, longest, |word, letter| {
        word.last() != Some(&inverse_letter(letter))
    })
}

/// All rows of letters over the first generators, up to a length, those that cancel among them.
pub fn rows(generators: usize, longest: usize) -> Vec<Vec<u8>> {
    longer_rows(generators, longest, |_, _| true)
}

/// All rows that come from the blank one, up to a length, by letters that may follow.
fn longer_rows(
    generators: usize,
    longest: usize,
    may_follow: impl Fn(&[u8], u8) -> bool,
) -> Vec<Vec<u8>> {
    let mut rows = vec![Vec::new()];
    let mut of_last_length = rows.clone();
    for _ in 0..longest {
        let mut longer = Vec::new();
        for row in &of_last_length {
            for letter in letters(generators) {
                if may_follow(row, letter) {
                    longer.push([&row[..], &[letter]].concat());
                }
            }
        }
        rows.extend_from_slice(&longer);
        of_last_length = longer;
    }
    rows
}

/// Lends every system of this many freely reduced words over the first generators, up to a length.
pub fn for_each_system(generators: usize, longest: usize, records: usize, lend: impl FnMut(&[u8])) {
    for_each_system_of(&words(generators, longest), records, lend);
}

/// Lends every system of this many of the rows.
pub fn for_each_system_of(rows: &[Vec<u8>], records: usize, mut lend: impl FnMut(&[u8])) {
    for number in 0..rows.len().pow(records as u32) {
        let mut system = Vec::new();
        let mut rest = number;
        for _ in 0..records {
            system.extend(record(&rows[rest % rows.len()]));
            rest /= rows.len();
        }
        lend(&system);
    }
}

#[cfg(test)]
mod tests {
    use super::*;

    /// How many words and systems there are.
    #[test]
    fn counts() {
        assert_eq!(letters(2), b"aAbB");
        assert_eq!(words(2, 3).len(), 1 + 4 + 12 + 36);
        assert_eq!(words(1, 5).len(), 11);
        assert_eq!(rows(2, 3).len(), 1 + 4 + 16 + 64);
        let mut systems = 0;
        for_each_system(2, 2, 3, |system| {
            assert_eq!(system.len(), 192);
            systems += 1;
        });
        assert_eq!(systems, 17 * 17 * 17);
    }
}
