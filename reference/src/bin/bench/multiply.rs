//! Times multiply on products with few and many letters, of short and of long words.
//! Every result fits a record; some rows are far longer on the way.

use crate::entries::MULTIPLY;
use crate::timing::{line, time};
use subgroups_reference::random::{Kind, Random};
use subgroups_reference::records::{record, MOST_RECORDS, RECORD};
use subgroups_reference::words::{inverse_letters, LONGEST};

const SYSTEMS: usize = 64;

/// Times all kinds of products.
pub fn bench() {
    let random = &mut Random::new(321);
    compare(random, "16 words, blank product", (1, LONGEST), |_| {
        Vec::new()
    });
    let factors = |count| move |random: &mut Random| random.reduced_letters(MOST_RECORDS, count);
    let name = "16 words of 1-6 letters, 10 factors";
    compare(random, name, (1, 6), factors(10));
    let name = "16 words of 1 letter, 63 factors";
    compare(random, name, (1, 1), factors(LONGEST));
    let name = "16 x 63 letters, 31 factors there and back";
    compare(random, name, (LONGEST, LONGEST), |random| {
        let there = factors(31)(random);
        [&there[..], &inverse_letters(&there)].concat()
    });
}

/// Times multiply on random systems with words of these lengths and a product for each.
fn compare(
    random: &mut Random,
    name: &str,
    (shortest, longest): (usize, usize),
    letters: impl Fn(&mut Random) -> Vec<u8>,
) {
    let mut inputs = Vec::new();
    for _ in 0..SYSTEMS {
        let system = random.system(Kind::Reduced, 3, MOST_RECORDS, shortest, longest);
        inputs.push([system, record(letters(random)).to_vec()]);
    }
    let times = time(MULTIPLY, &inputs, [RECORD]);
    line(&format!("multiply, {name}"), times);
}
