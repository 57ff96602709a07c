//! Tests of the verdict on independence: what it means, by trying all short products over the slots
//! and by finding a relation wherever a slot is blank at the end, and what has changed in it.

use crate::answers::Answer;
use crate::made_logs::with_lengths_of_the_run;
use crate::random::{Kind, Random};
use crate::records::{freely_reduced, record, system, RECORD};
use crate::reduction::{reduction, Reduction};
use crate::small;
use crate::words::Word;
use crate::{multiply, replay, Direction};

const FILL: u8 = 0xEE;

/// A random system of at most three short words, with many that are blank or cancel to nothing.
fn small_system(random: &mut Random) -> Vec<u8> {
    let generators = random.between(1, 2);
    let records = random.below(4);
    let kind = Kind::ALL[random.below(Kind::ALL.len())];
    random.system(kind, generators, records, 0, 4)
}

/// Whether a given word freely reduces to the empty word.
fn has_empty_word(given: &[u8]) -> bool {
    freely_reduced(given).words().iter().any(Word::is_empty)
}

/// Whether a product over the slots multiplies out to the empty word.
fn comes_to_the_empty_word(given: &[u8], product: &[u8]) -> bool {
    let mut word = [FILL; RECORD];
    assert_eq!(multiply(given, &record(product), &mut word), Answer::done());
    word == record("")
}

/// The nontrivial relations of one to four factors: products over the slots in which no letter
/// stands beside its own capital and which come to the empty word.
fn short_relations(given: &[u8]) -> Vec<Vec<u8>> {
    let mut products = small::words(given.len() / RECORD, 4);
    products.retain(|product| !product.is_empty() && comes_to_the_empty_word(given, product));
    products
}

/// A system with a short relation is dependent, and it has a relation of one factor exactly when a
/// given word cancels to nothing.
#[test]
fn no_short_relation_where_independent() {
    let mut random = Random::new(21);
    let (mut independent, mut of_one_factor, mut of_more) = (0, 0, 0);
    for _ in 0..1000 {
        let given = small_system(&mut random);
        let verdict = reduction(&given).answer.independent;
        let relations = short_relations(&given);
        let one_factor = relations.iter().any(|product| product.len() == 1);
        assert_eq!(one_factor, has_empty_word(&given));
        assert!(verdict == 0 || relations.is_empty(), "{relations:?}");
        independent += verdict;
        of_one_factor += u64::from(one_factor);
        of_more += u64::from(!one_factor && !relations.is_empty());
    }
    let counts = [independent, of_one_factor, of_more];
    assert!(counts.iter().all(|&count| count > 50), "{counts:?}");
}

/// The moves of the log, followed from a generator for each slot with the lengths that they have there,
/// give the product over the given slots that each reduced word is, and that of a blank slot is a
/// relation, so that every dependent system has one.
#[test]
fn a_relation_where_dependent() {
    let mut random = Random::new(22);
    let mut dependent = 0;
    for _ in 0..2000 {
        let given = small_system(&mut random);
        let Reduction { answer, words, log } = reduction(&given);
        let generators = system(&["a", "b", "c"][..given.len() / RECORD]);
        let log = with_lengths_of_the_run(&generators, &log, Direction::Forward);
        let mut products = vec![FILL; given.len()];
        let replayed = replay(&generators, &log, Direction::Forward, &mut products);
        assert_eq!(replayed, Answer::done());
        let (products, reduced) = (freely_reduced(&products), freely_reduced(&words));
        for (product, word) in products.words().iter().zip(reduced.words()) {
            assert!(!product.is_empty());
            let relation = comes_to_the_empty_word(&given, product.letters());
            assert_eq!(relation, word.is_empty());
        }
        assert_eq!(answer.independent, u64::from(!has_empty_word(&words)));
        dependent += 1 - answer.independent;
    }
    assert!(dependent > 500, "{dependent}");
}

/// The former verdict: the rank is the number of given words that do not cancel to nothing.
fn formerly_independent(given: &[u8], words: &[u8]) -> bool {
    freely_reduced(words).rank() == freely_reduced(given).rank()
}

/// A system is independent where it formerly was and no given word cancels to nothing.
#[test]
fn change_of_the_former_verdict() {
    let mut random = Random::new(24);
    let mut changed = 0;
    for _ in 0..800 {
        let generators = [1, 2, 3, 5, 26][random.below(5)];
        let given = random.system_to_reduce(generators);
        let Reduction { answer, words, .. } = reduction(&given);
        let former = formerly_independent(&given, &words);
        let independent = former && !has_empty_word(&given);
        assert_eq!(answer.independent, u64::from(independent));
        changed += u64::from(former != independent);
    }
    assert!(changed > 50, "{changed}");
}
