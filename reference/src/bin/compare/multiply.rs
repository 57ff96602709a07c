//! The inputs on which multiply is compared: products of every kind and length over systems of every
//! size, sound and damaged.

use crate::comparison::Comparison;
use crate::entries::MULTIPLY;
use crate::inputs::*;
use subgroups_reference::answers::DONE;
use subgroups_reference::random::{Kind, Random};
use subgroups_reference::records::{record, system, MOST_RECORDS, RECORD};
use subgroups_reference::refusals::*;
use subgroups_reference::words::{inverse_letter, Word, LONGEST};

/// The comparison of multiply: the system and the product; the word buffer.
type Multiply = Comparison<2, 1>;

/// Compares multiply on all its inputs and gives the number of calls.
pub fn compare() -> u64 {
    let inputs = ["system", "product"];
    let calls = &mut Multiply::new("multiply", MULTIPLY, inputs, ["word buffer"]);
    for system in sheet_systems() {
        for product in ["", "a", "A", "bA", "abcd", "DCBAab"] {
            calls.call_with_all_rooms([&system, &record(product)], [RECORD]);
        }
    }
    system_lengths(calls);
    for_each_malformed_system(|system| call_text(calls, system, "aBc"));
    for_each_two_faults(|system| call_text(calls, system, "acB"));
    refusals_in_order(calls);
    let given = system(&["ab", "aaB", &"c".repeat(LONGEST)]);
    for product in ["", "a", "aBbA", "c", "Cab", "ccC", "cc", "d", "aBc"] {
        calls.call_with_every_length([&given, &record(product)], [RECORD], 0);
    }
    for system in [Vec::new(), system(&["ab", "c"]), mixed_system()] {
        for_each_length_of_record("aB", |product| {
            calls.call_with_all_rooms([&system, product], [RECORD]);
        });
    }
    damaged_products(calls);
    named_slots(calls);
    results_of_every_length(calls);
    long_rows(calls);
    random_products(calls);
    let refusals = [
        TARGET_OR_PRODUCT_MALFORMED,
        SLOT_MISSING,
        WORDS_BUFFER_SHORT,
        WORD_TOO_LONG,
    ];
    calls.end(&[DONE], &refusals)
}

/// Compares a call with a product given as text and just enough room.
fn call_text(calls: &mut Multiply, system: &[u8], product: &str) {
    calls.call([system, &record(product)], [RECORD]);
}

/// Systems of every length, with sound and with refused products and with a short word buffer.
fn system_lengths(calls: &mut Multiply) {
    calls.walk_lengths(|calls, system| {
        for product in ["", "aBa", "z"] {
            call_text(calls, system, product);
        }
        calls.call([system, &record("a")], [RECORD - 1]);
        calls.call([system, b"aBa"], [RECORD - 1]);
    });
}

/// Faults of the system, the product, the word buffer and the result, two and more at once.
fn refusals_in_order(calls: &mut Multiply) {
    let mut products = vec![Vec::new()];
    for text in ["", "a", "aCc", "bb", "bbe", "ez", "bbZ", "abB", "Bq"] {
        products.extend(sound_and_refused_records(text));
    }
    for system in sound_and_refused_systems() {
        for product in &products {
            calls.call_with_all_rooms([&system, product], [RECORD]);
        }
    }
}

/// Every byte of a product changed to every other, and two faults in one product.
fn damaged_products(calls: &mut Multiply) {
    let given = system(&["ab", "c", "", "bbA", "dA"]);
    for_each_damaged_record("abCDe", |product| calls.call([&given, product], [RECORD]));
    for base in records_of("abCDe") {
        for_each_changed_byte(&base, 0..RECORD, &TELLING_BYTES, |product| {
            calls.call([&[], product], [RECORD]);
            calls.call([&given, product], [RECORD - 1]);
        });
    }
}

/// Every letter and capital named at several places, and two at once, over systems of every size.
fn named_slots(calls: &mut Multiply) {
    let letters: Vec<u8> = (b'a'..=b'z').chain(b'A'..=b'Z').collect();
    for_each_number_of_records(|given| {
        for &letter in &letters {
            for place in [0, 1, 30, LONGEST - 1] {
                let mut product = record(&"aA".repeat(32)[..place]);
                product[place] = letter;
                calls.call([given, &product], [RECORD]);
            }
            for &other in &letters {
                let text = [b'a', letter, other, b'A'];
                let text = String::from_utf8_lossy(&text);
                call_text(calls, given, &text);
            }
        }
    });
}

/// Products whose results have every length from 0 to 130, with and without cancellation between.
fn results_of_every_length(calls: &mut Multiply) {
    let mut random = Random::new(502);
    for length in 0..=130 {
        for _ in 0..40 {
            let whole = random.reduced_letters(3, length);
            let mut cuts: Vec<usize> = (0..4).map(|_| random.below(length + 1)).collect();
            cuts.extend([0, length]);
            cuts.sort_unstable();
            let mut given = Vec::new();
            let mut product = Vec::new();
            for part in cuts.windows(2) {
                let part = &whole[part[0]..part[1]];
                let Some(room) = LONGEST.checked_sub(part.len()) else {
                    continue;
                };
                let between = random.below(room + 1);
                let between = random.reduced_letters(3, between);
                let slot = b'a' + (given.len() / RECORD) as u8;
                let row = [part, &between].concat();
                if random.below(2) == 0 {
                    given.extend(record(row));
                    product.push(slot);
                } else {
                    given.extend(record(Word::freely_reduced(&row).inverse().letters()));
                    product.push(inverse_letter(slot));
                }
                given.extend(record(between));
                product.push(inverse_letter(slot + 1));
            }
            calls.call([&given, &record(product)], [RECORD]);
        }
    }
}

/// Rows whose beginning is far longer than 63 letters, most of which cancels in the end.
fn long_rows(calls: &mut Multiply) {
    let full = "abc".repeat(21);
    let given = system(&[&full, "c", &"A".repeat(LONGEST), "a", &full[1..], ""]);
    for there in 0..=LONGEST {
        for back in 0..=LONGEST - there {
            for (letter, capital) in [("a", "A"), ("c", "C"), ("ae", "EA"), ("f", "c")] {
                let row = letter.repeat(there) + &capital.repeat(back) + "b";
                call_text(calls, &given, &row[..row.len().min(LONGEST)]);
                let row = "D".repeat(5) + &letter.repeat(there) + &capital.repeat(back);
                call_text(calls, &given, &row[..row.len().min(LONGEST)]);
            }
        }
    }
    let mut random = Random::new(503);
    for _ in 0..20_000 {
        let root = random.reduced_letters(2, 3);
        let mut given = Vec::new();
        for _ in 0..8 {
            given.extend(record(root.repeat(random.between(1, 21))));
        }
        let balance: Vec<u8> = (0..LONGEST)
            .map(|place| match place < LONGEST / 2 {
                true => b'a' + random.below(8) as u8,
                false => b'A' + random.below(8) as u8,
            })
            .collect();
        let letters = random.between(2, LONGEST / 2);
        let product = record(&balance[LONGEST / 2 - letters..LONGEST / 2 + letters]);
        calls.call([&given, &product], [RECORD]);
    }
}

/// Random systems with random products, letters beside their capitals among them, and damaged ones.
fn random_products(calls: &mut Multiply) {
    let mut random = Random::new(504);
    for generators in GENERATORS {
        for round in 0..30_000 {
            let mut given = match round % 3 {
                0 => random.system_to_reduce(generators),
                1 => random.system(Kind::Uniform, generators, MOST_RECORDS, 0, 3),
                _ => random_system(&mut random, generators),
            };
            let slots = (given.len() / RECORD).max(1);
            let most = [3, 10, LONGEST][random.below(3)];
            let letters = random.between(0, most);
            let kind = Kind::ALL[random.below(Kind::ALL.len())];
            let mut product = record(random.letters(kind, slots, letters));
            let room = any_room(&mut random, RECORD);
            calls.call([&given, &product], [room]);
            if round % 8 == 0 {
                damage(&mut random, &mut product);
                calls.call([&given, &product], [room]);
                damage(&mut random, &mut given);
                calls.call([&given, &product], [room]);
            }
        }
    }
}
