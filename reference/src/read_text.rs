//! The call read_text: a word as people write it, with powers and commutators, becomes a record.
//! The text is taken apart into a tree, which is judged and multiplied out by the definitions.

use crate::answers::Answer;
use crate::records::{check_room_for_words, write_record};
use crate::refusals::*;
use crate::text::{product_of, Base, Factor, Product};
use crate::words::{free_reduction, inverse_letters, LONGEST};

/// The most bytes that a text may have.
pub const LONGEST_TEXT: usize = 256;
/// How deep groups and brackets may be nested.
pub const DEEPEST: usize = 8;
/// The greatest exponent, and with a minus sign the least.
pub const GREATEST_EXPONENT: i32 = 63;

/// Writes the record of the freely reduced word that the text stands for.
pub fn read_text(text: &[u8], word: &mut [u8]) -> Answer {
    read_text_or_refuse(text, word).unwrap_or_else(Answer::refused)
}

/// Does what read_text promises, or gives the refusal.
fn read_text_or_refuse(text: &[u8], word: &mut [u8]) -> Result<Answer, Refusal> {
    if text.len() > LONGEST_TEXT {
        return Err(Refusal::new(TEXT_MALFORMED, 0));
    }
    let product = product_of(text).map_err(|place| Refusal::new(TEXT_MALFORMED, place))?;
    if let Some(opening) = first_too_deep(&product, 1) {
        return Err(Refusal::new(NESTING_TOO_DEEP, opening));
    }
    if let Some(caret) = first_out_of_range(&product) {
        return Err(Refusal::new(EXPONENT_OUT_OF_RANGE, caret));
    }
    check_room_for_words(word, 1)?;
    write_record(&value_of_product(&product)?, word);
    Ok(Answer::done())
}

/// The first opening sign that is nested too deep, where those of the product itself have this depth.
fn first_too_deep(product: &Product, depth: usize) -> Option<usize> {
    product.iter().find_map(|factor| {
        let opening = factor.base.opening()?;
        if depth > DEEPEST {
            return Some(opening);
        }
        let mut products = factor.base.products().iter();
        products.find_map(|product| first_too_deep(product, depth + 1))
    })
}

/// The first caret with an exponent out of range; the carets inside a factor come before its own.
fn first_out_of_range(product: &Product) -> Option<usize> {
    let allowed = -GREATEST_EXPONENT..=GREATEST_EXPONENT;
    product.iter().find_map(|factor| {
        let mut products = factor.base.products().iter();
        products.find_map(first_out_of_range).or_else(|| {
            let power = factor.power.as_ref()?;
            (!allowed.contains(&power.exponent)).then_some(power.caret)
        })
    })
}

/// The free reduction of a row of letters, or refusal 12 if it has more than 63.
fn reduced(row: &[u8]) -> Result<Vec<u8>, Refusal> {
    let mut word = vec![0; row.len()];
    let length = free_reduction(row, &mut word);
    if length > LONGEST {
        return Err(Refusal::new(WORD_TOO_LONG, 0));
    }
    word.truncate(length);
    Ok(word)
}

/// The value of a product, each of whose beginnings has at most 63 letters.
fn value_of_product(product: &Product) -> Result<Vec<u8>, Refusal> {
    let mut row = Vec::new();
    for factor in product {
        row.extend(value_of_factor(factor)?);
        reduced(&row)?;
    }
    reduced(&row)
}

/// The value of a factor, which has at most 63 letters without its power and with it.
fn value_of_factor(factor: &Factor) -> Result<Vec<u8>, Refusal> {
    let base = match &factor.base {
        Base::Letter(letter) => vec![*letter],
        Base::Group(_, product) => value_of_product(product)?,
        Base::Bracket(_, [u, v]) => {
            let (u, v) = (value_of_product(u)?, value_of_product(v)?);
            reduced(&[inverse_letters(&u), inverse_letters(&v), u, v].concat())?
        }
    };
    let Some(power) = &factor.power else {
        return Ok(base);
    };
    let times = power.exponent.unsigned_abs() as usize;
    if power.exponent < 0 {
        reduced(&inverse_letters(&base).repeat(times))
    } else {
        reduced(&base.repeat(times))
    }
}
