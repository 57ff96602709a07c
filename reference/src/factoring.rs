//! Factoring a target over reduced words by their big ends and half ends: the first of two unrelated
//! ways to decide membership, for ask and for member. The other way is the folded graph.

use crate::answers::{MEMBER, NOT_A_MEMBER};
use crate::elements::{elements, Element};
use crate::records::write_record;
use crate::words::{common_beginning, Word};

/// Whether an element of another slot ends with this one's second half.
fn second_half_elsewhere(elements: &[Element], element: &Element) -> bool {
    element.word.halves().is_some_and(|(_, second)| {
        let mut others = elements.iter().filter(|other| other.slot != element.slot);
        others.any(|other| other.word.ends_with(&second))
    })
}

/// The only element with which a product for the target can begin, if there is one: the target begins
/// with more than half of it, or with just half of it and the other half cancels.
fn first_factor<'a>(elements: &'a [Element], target: &Word) -> Option<&'a Element> {
    let shared = |element: &Element| common_beginning(element.word.letters(), target.letters());
    let big_end = |element: &&Element| 2 * shared(element) > element.word.len();
    let half_end = |element: &&Element| {
        2 * shared(element) == element.word.len() && second_half_elsewhere(elements, element)
    };
    let found = elements.iter().find(big_end);
    found.or_else(|| elements.iter().find(half_end))
}

/// The product over reduced words that multiplies out to the target, as slot letters, if any does.
pub fn factor(words: &[Word], target: &Word) -> Option<Vec<u8>> {
    let elements = elements(words);
    let mut rest = *target;
    let mut product = Vec::new();
    while !rest.is_empty() {
        // Every factor leaves at least one letter in the target: there are no more than its letters.
        if product.len() == target.len() {
            return None;
        }
        let factor = first_factor(&elements, &rest)?;
        product.push(factor.letter());
        let shorter = factor.word.inverse().times(&rest);
        rest = shorter.expect("taking a factor off makes the rest no longer");
    }
    Some(product)
}

/// The verdict on a target over reduced words; a member's product is written into the product buffer.
pub fn verdict(words: &[Word], target: &Word, product: &mut [u8]) -> u64 {
    match factor(words, target) {
        Some(letters) => {
            write_record(&letters, product);
            MEMBER
        }
        None => NOT_A_MEMBER,
    }
}
