//! Texts as people write words, taken apart into trees by their grammar, to any depth:
//! a product is any number of factors; a factor is a letter, (product) or [product,product], with at
//! most one power after it; a power is ^, a minus sign or none, and one or two digits.

use std::slice;

/// The factors of a product in order.
pub type Product = Vec<Factor>;

/// A factor of a product.
#[derive(Debug)]
pub struct Factor {
    pub base: Base,
    pub power: Option<Power>,
}

/// A factor without its power; a group and a bracket with the place of their opening sign.
#[derive(Debug)]
pub enum Base {
    Letter(u8),
    Group(usize, Product),
    Bracket(usize, [Product; 2]),
}

/// The power after a factor, with the place of its caret.
#[derive(Debug)]
pub struct Power {
    pub caret: usize,
    pub exponent: i32,
}

impl Base {
    /// The place of the opening sign, which a letter does not have.
    pub fn opening(&self) -> Option<usize> {
        match self {
            Base::Letter(_) => None,
            Base::Group(opening, _) | Base::Bracket(opening, _) => Some(*opening),
        }
    }

    /// The products inside.
    pub fn products(&self) -> &[Product] {
        match self {
            Base::Letter(_) => &[],
            Base::Group(_, product) => slice::from_ref(product),
            Base::Bracket(_, products) => products,
        }
    }
}

/// The product that a well-formed text is; for any other text the first byte with which no
/// well-formed text can go on, or the text's length where there is none.
///
/// That byte is the first one that is not taken below. For the bytes before it are the beginning of a
/// well-formed text: put a digit after them where one is wanted, then close all that is open, a
/// bracket without its comma by a comma first. And no well-formed text begins with them and that byte:
/// what is taken next is told by one byte alone, without a look ahead. A letter or an opening sign
/// begins a factor, and nothing else does; a caret just after a factor belongs to it; a digit after
/// the first one of an exponent is its second; a closing sign and a comma belong to what was opened
/// last. So there is one way only to take the bytes before, and where it does not go on none does.
pub fn product_of(text: &[u8]) -> Result<Product, usize> {
    let mut signs = Signs { text, place: 0 };
    let product = signs.product()?;
    if signs.place < text.len() {
        return Err(signs.place);
    }
    Ok(product)
}

/// A text of which the signs before a place are taken.
struct Signs<'a> {
    text: &'a [u8],
    place: usize,
}

impl Signs<'_> {
    /// Takes the next sign if it is one of these.
    fn take_if(&mut self, is_one: impl Fn(u8) -> bool) -> Option<u8> {
        let sign = *self.text.get(self.place)?;
        is_one(sign).then(|| {
            self.place += 1;
            sign
        })
    }

    /// Takes the sign that must stand here, or gives the place where it does not.
    fn take(&mut self, must: u8) -> Result<(), usize> {
        let taken = self.take_if(|sign| sign == must);
        taken.map(|_| ()).ok_or(self.place)
    }

    /// Takes as many factors as there are.
    fn product(&mut self) -> Result<Product, usize> {
        let mut product = Vec::new();
        while let Some(base) = self.base()? {
            let power = self.power()?;
            product.push(Factor { base, power });
        }
        Ok(product)
    }

    /// Takes a letter, a group or a bracket, if the next sign begins one.
    fn base(&mut self) -> Result<Option<Base>, usize> {
        let opening = self.place;
        let begins = |sign: u8| sign.is_ascii_alphabetic() || sign == b'(' || sign == b'[';
        let base = match self.take_if(begins) {
            None => return Ok(None),
            Some(b'(') => {
                let product = self.product()?;
                self.take(b')')?;
                Base::Group(opening, product)
            }
            Some(b'[') => {
                let first = self.product()?;
                self.take(b',')?;
                let second = self.product()?;
                self.take(b']')?;
                Base::Bracket(opening, [first, second])
            }
            Some(letter) => Base::Letter(letter),
        };
        Ok(Some(base))
    }

    /// Takes a power, if the next sign is a caret.
    fn power(&mut self) -> Result<Option<Power>, usize> {
        let caret = self.place;
        if self.take(b'^').is_err() {
            return Ok(None);
        }
        let negative = self.take(b'-').is_ok();
        let mut size = self.digit().ok_or(self.place)?;
        if let Some(second) = self.digit() {
            size = 10 * size + second;
        }
        let exponent = if negative { -size } else { size };
        Ok(Some(Power { caret, exponent }))
    }

    /// Takes a digit, if the next sign is one.
    fn digit(&mut self) -> Option<i32> {
        let digit = self.take_if(|sign| sign.is_ascii_digit())?;
        Some(i32::from(digit - b'0'))
    }
}

#[cfg(test)]
mod tests {
    use super::*;
    use std::collections::HashSet;

    /// The signs of the texts below: one letter and one digit stand for all.
    const SIGNS: &[u8; 9] = b"a()[,]^-0";

    /// How long the texts are that are judged: a beginning of so many signs goes on to the end of some
    /// well-formed text of three times as many, as nothing needs more than two others to close it.
    const JUDGED: usize = 4;

    /// All texts of this length that are one of the first list followed by one of the second, where a
    /// list has its texts by their lengths.
    fn rows(first: &[Vec<String>], second: &[Vec<String>], length: usize) -> Vec<String> {
        let mut rows = Vec::new();
        for (one, begins) in first.iter().enumerate().take(length + 1) {
            let Some(ends) = second.get(length - one) else {
                continue;
            };
            for begin in begins {
                rows.extend(ends.iter().map(|end| format!("{begin}{end}")));
            }
        }
        rows
    }

    /// All well-formed texts of these signs up to a length, each as often as the grammar gives it.
    fn well_formed(longest: usize) -> Vec<String> {
        let powers: [&[&str]; 5] = [&[""], &[], &["^0"], &["^00", "^-0"], &["^-00"]];
        let powers = powers.map(|powers| powers.iter().map(|power| power.to_string()).collect());
        let mut products = vec![vec![String::new()]];
        let mut bases = vec![Vec::new()];
        let mut factors = vec![Vec::new()];
        for length in 1..=longest {
            let mut of_length = Vec::new();
            if length == 1 {
                of_length.push("a".to_string());
            }
            if let Some(inside) = length.checked_sub(2) {
                let inside = products[inside].iter();
                of_length.extend(inside.map(|product| format!("({product})")));
            }
            for first in 0..length.saturating_sub(2) {
                for one in &products[first] {
                    let others = products[length - 3 - first].iter();
                    of_length.extend(others.map(|other| format!("[{one},{other}]")));
                }
            }
            bases.push(of_length);
            factors.push(rows(&bases, &powers, length));
            let longer = rows(&factors, &products, length);
            products.push(longer);
        }
        products.concat()
    }

    /// All texts of the signs up to the length that is judged.
    fn short_texts() -> Vec<String> {
        let mut texts = vec![String::new()];
        let mut of_last_length = texts.clone();
        for _ in 0..JUDGED {
            let longer = |text: &String| SIGNS.map(|sign| format!("{text}{}", char::from(sign)));
            of_last_length = of_last_length.iter().flat_map(longer).collect();
            texts.extend_from_slice(&of_last_length);
        }
        texts
    }

    /// Of all short texts just the well-formed ones have a product, and the place of every other one is
    /// where it leaves the beginnings of all well-formed texts.
    #[test]
    fn all_short_texts() {
        let texts = well_formed(3 * JUDGED);
        let well_formed: HashSet<&str> = texts.iter().map(String::as_str).collect();
        assert_eq!(well_formed.len(), texts.len(), "each comes in one way only");
        let mut beginnings = HashSet::new();
        for text in &texts {
            beginnings.extend((0..=text.len().min(JUDGED)).map(|length| &text[..length]));
        }
        let mut counts = [0; 3];
        for text in short_texts() {
            let leaves = (1..=text.len()).find(|&length| !beginnings.contains(&text[..length]));
            let expected = match leaves {
                Some(length) => Err(length - 1),
                None if well_formed.contains(&text[..]) => Ok(()),
                None => Err(text.len()),
            };
            assert_eq!(product_of(text.as_bytes()).map(|_| ()), expected, "{text}");
            let kind = match expected {
                Ok(()) => 0,
                Err(place) if place == text.len() => 1,
                Err(_) => 2,
            };
            counts[kind] += 1;
        }
        assert_eq!(counts.iter().sum::<usize>(), 1 + 9 + 81 + 729 + 6561);
        assert_eq!(counts[0], 1 + 1 + 2 + 6 + 18);
        assert!(counts[1] > 100, "{counts:?}");
    }

    /// Every well-formed text of up to twelve signs has a product, and without its last sign it has one
    /// too or ends too early.
    #[test]
    fn all_well_formed_texts() {
        let texts = well_formed(3 * JUDGED);
        let well_formed: HashSet<&str> = texts.iter().map(String::as_str).collect();
        for text in &texts {
            assert!(product_of(text.as_bytes()).is_ok(), "{text}");
            if let Some(last) = text.len().checked_sub(1) {
                let shorter = &text[..last];
                let expected = match well_formed.contains(shorter) {
                    true => Ok(()),
                    false => Err(last),
                };
                let product = product_of(shorter.as_bytes());
                assert_eq!(product.map(|_| ()), expected, "{shorter}");
            }
        }
    }

    /// A tree has the places of its opening signs and carets and the values of its exponents.
    #[test]
    fn places_and_exponents() {
        let product = product_of(b"a(B^-07)^3[,c]^00").expect("well formed");
        let [letter, group, bracket] = &product[..] else {
            panic!("three factors")
        };
        let power = |factor: &Factor| {
            let power = factor.power.as_ref();
            power.map(|power| (power.caret, power.exponent))
        };
        assert_eq!((letter.base.opening(), power(letter)), (None, None));
        assert_eq!(
            (group.base.opening(), power(group)),
            (Some(1), Some((8, 3)))
        );
        let inside = &group.base.products()[0];
        assert!(matches!(inside[0].base, Base::Letter(b'B')));
        assert_eq!(power(&inside[0]), Some((3, -7)));
        assert_eq!(bracket.base.opening(), Some(10));
        assert_eq!(power(bracket), Some((14, 0)));
        let counts = bracket.base.products().iter().map(Vec::len);
        assert!(counts.eq([0, 1]));
    }
}
