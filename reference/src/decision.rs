//! What ask and member decide, checked in another way than they decide: against the folded graph,
//! and a member's product by multiplying it out again.

use crate::answers::{Answer, MEMBER};
use crate::graph::traces;
use crate::records::{freely_reduced, record, slot_named, RECORD};
use crate::{multiply, tidy};

/// Checks the decision of a call of ask that was not refused, given the system and the target, what
/// stands in the product buffer, and the answer.
pub fn check_ask(
    [system, target]: [&[u8]; 2],
    [product]: [&[u8]; 1],
    answer: Answer,
) -> Result<(), &'static str> {
    check_decision([system, target], [system, product], answer)
}

/// Checks the decision of a call of member that was not refused, given the system and the target,
/// what stands in the words buffer, the log and the product buffer, and the answer.
pub fn check_member(
    [system, target]: [&[u8]; 2],
    [words, _, product]: [&[u8]; 3],
    answer: Answer,
) -> Result<(), &'static str> {
    check_decision([system, target], [&words[..system.len()], product], answer)
}

/// Checks a verdict by the folded graph of the system, and a member's product over the words that it
/// is a product of.
fn check_decision(
    [system, target]: [&[u8]; 2],
    [words, product]: [&[u8]; 2],
    answer: Answer,
) -> Result<(), &'static str> {
    let target = freely_reduced(target).words()[0];
    let member = answer.verdict == MEMBER;
    if traces(freely_reduced(system).words(), &target) != member {
        return Err("factoring and the folded graph disagree");
    }
    if !member {
        return Ok(());
    }
    let product = &product[..RECORD];
    let mut tidied = [0; RECORD];
    if tidy(product, &mut tidied) != Answer::done() || tidied != product {
        return Err("the product is not freely reduced");
    }
    let reduced = freely_reduced(words);
    let blank = |letter: &u8| {
        slot_named(letter.to_ascii_lowercase(), reduced.count())
            .is_some_and(|slot| reduced.words()[slot].is_empty())
    };
    if product.iter().any(blank) {
        return Err("the product names a blank slot");
    }
    let mut multiplied = [0; RECORD];
    let done = multiply(words, product, &mut multiplied);
    if done != Answer::done() || multiplied != record(target.letters()) {
        return Err("the product does not multiply out to the target");
    }
    Ok(())
}
