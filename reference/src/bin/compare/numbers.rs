//! Systems of numbers, on which from numbers and tidy numbers are compared: sheets, every length, every
//! number at some places and telling ones at every place, two faults at once, and random systems.

use crate::comparison::Comparison;
use crate::inputs::*;
use subgroups_reference::number_sheets::{NUMBERED, REFUSED, TIDIED};
use subgroups_reference::numbers::*;
use subgroups_reference::random::{Kind, Random};
use subgroups_reference::random_numbers::LARGEST_GENERATORS;
use subgroups_reference::records::MOST_RECORDS;
use subgroups_reference::words::LONGEST;

/// The comparison of a call on numbers: the system of numbers; the buffer that is written.
pub type OfNumbers = Comparison<1, 1>;

/// Numbers at and around the ends of what a record may hold and of what has a letter, and numbers whose
/// two bytes are such a number's the other way round or differ from one in a single byte.
const TELLING_NUMBERS: [i16; 46] = [
    0, 1, 2, 24, 25, 26, 27, 28, 63, 127, 128, 255, 256, 257, 282, 512, 768, 998, 999, 1000, 1001,
    1002, 1023, 1024, 6656, 32_767, -1, -2, -24, -25, -26, -27, -28, -128, -255, -256, -257, -998,
    -999, -1000, -1001, -1002, -1024, -6400, -32_767, -32_768,
];

/// Bytes of which the low and the high ones of such numbers consist.
const BYTES_OF_NUMBERS: [u8; 18] = [
    0, 1, 2, 3, 4, 24, 26, 27, 127, 128, 229, 230, 231, 232, 233, 251, 252, 255,
];

/// Pairs of numbers that are faulty or sound, alone and together.
const TWO_NUMBERS: [(i16, i16); 12] = [
    (0, 1),
    (0, 27),
    (0, 1001),
    (1, 0),
    (26, -26),
    (27, 0),
    (27, -27),
    (27, 1001),
    (1001, 0),
    (1001, 27),
    (-1001, 1001),
    (-1000, -32_768),
];

/// Puts a number in the place of another one of a system.
fn put_number(numbers: &mut [u8], index: usize, number: i16) {
    numbers[NUMBER * index..NUMBER * (index + 1)].copy_from_slice(&number.to_le_bytes());
}

/// The systems of the sheets, those that are refused too.
fn sheet_systems_of_numbers() -> Vec<Vec<u8>> {
    let numbered = NUMBERED.iter().map(|(_, row)| system_of_numbers(&[row]));
    let tidied = TIDIED.iter().map(|(row, _)| system_of_numbers(&[row]));
    let refused = REFUSED.iter().map(|(rows, _, _)| system_of_numbers(rows));
    numbered.chain(tidied).chain(refused).collect()
}

/// A system of 16 records of many lengths, with a few generators up to a largest one.
fn mixed_numbers(largest: usize) -> Vec<u8> {
    let mut random = Random::new(1201);
    let generators = random.generators(4, largest);
    let mut whole = Vec::new();
    for slot in 0..MOST_RECORDS {
        let length = (5 * slot + 3) % NUMBERS;
        whole.extend(random.record_of_row(Kind::Cancelling, &generators, length));
    }
    whole
}

/// Systems of which one number after another is changed: 16 records of many lengths with letters, then 4
/// blank ones, 4 full ones with letters, and 4 of many lengths with numbers up to 1,000.
fn systems_to_change() -> [Vec<u8>; 4] {
    let mut random = Random::new(1202);
    let generators = random.generators(26, 26);
    let mut full = Vec::new();
    for _ in 0..4 {
        full.extend(random.record_of_row(Kind::Uniform, &generators, LONGEST));
    }
    let any = mixed_numbers(1000)[..full.len()].to_vec();
    [mixed_numbers(26), vec![0; full.len()], full, any]
}

/// Lends systems of numbers of every length from 0 to 2,300 bytes and of some far longer ones: well formed
/// as far as they go, broken in the first record or with a number there that has no letter, and of any bytes.
pub fn for_each_length_of_numbers(mut lend: impl FnMut(&[u8])) {
    let mut random = Random::new(1203);
    let records = EVERY_LENGTH / NUMBERS_RECORD + 1;
    let well_formed = record_of_numbers([1, -1, 26, 3]).repeat(records);
    let mut systems = vec![well_formed.clone()];
    for (index, number) in [(0, 300), (1, 1001), (7, 2), (LONGEST, -5)] {
        let mut changed = well_formed.clone();
        put_number(&mut changed, index, number);
        systems.push(changed);
    }
    for length in 0..=EVERY_LENGTH {
        for system in &systems {
            lend(&system[..length]);
        }
        lend(&any_bytes(&mut random, length));
    }
    let long = record_of_numbers([1, -2]).repeat(LONG_LENGTHS[2] / NUMBERS_RECORD + 2);
    for length in LONG_LENGTHS {
        for more in [0, 1, NUMBERS_RECORD] {
            lend(&long[..length + more]);
        }
    }
}

/// Compares a call on all systems of numbers, where this is the room that one of a length needs.
pub fn compare_on_all_systems(calls: &mut OfNumbers, needed: fn(usize) -> usize) {
    for numbers in sheet_systems_of_numbers() {
        calls.call_with_all_rooms([&numbers], [needed(numbers.len())]);
    }
    calls.walk_lengths(|calls, numbers| {
        calls.call_with_all_rooms([numbers], [needed(numbers.len())]);
    });
    let mixed = mixed_numbers(26);
    for length in (0..=mixed.len()).step_by(NUMBERS_RECORD) {
        calls.call_with_every_length([&mixed[..length]], [needed(length)], 0);
    }
    every_number(calls, needed);
    telling_numbers(calls, needed);
    two_changed_numbers(calls, needed);
    for numbers in sound_and_refused_systems_of_numbers() {
        calls.call_with_all_rooms([&numbers], [needed(numbers.len())]);
    }
    random_systems(calls, needed);
}

/// Each of all numbers at some places of a record that is half full and of a full one.
fn every_number(calls: &mut OfNumbers, needed: fn(usize) -> usize) {
    for row in [&[-26; 32][..], &[26; LONGEST]] {
        for index in [0, 31, LONGEST - 1, LONGEST] {
            let mut changed = record_of_numbers(row);
            for number in i16::MIN..=i16::MAX {
                put_number(&mut changed, index, number);
                calls.call([&changed], [needed(NUMBERS_RECORD)]);
            }
        }
    }
}

/// Telling numbers at every place of systems of 16 records and of 4, and each byte of a number changed alone.
fn telling_numbers(calls: &mut OfNumbers, needed: fn(usize) -> usize) {
    for base in systems_to_change() {
        for index in 0..base.len() / NUMBER {
            let mut changed = base.clone();
            for number in TELLING_NUMBERS {
                put_number(&mut changed, index, number);
                calls.call([&changed], [needed(changed.len()) + 5]);
            }
        }
    }
    let mixed = mixed_numbers(26);
    let whole = mixed.len();
    for_each_changed_byte(&mixed, 0..whole, &BYTES_OF_NUMBERS, |numbers| {
        calls.call([numbers], [needed(whole)]);
    });
    for_each_changed_byte(&mixed, 0..whole, b"\x04\x1B\xFF", |numbers| {
        calls.call([numbers], [needed(whole) - 1]);
        calls.call([&numbers[..whole - 1]], [needed(whole)]);
    });
}

/// Two numbers changed at any two places of two records that others stand before and behind.
fn two_changed_numbers(calls: &mut OfNumbers, needed: fn(usize) -> usize) {
    let base = system_of_numbers(&[&[1, -1], &[3, -2, 2, 26], &[5; 40], &[-7]]);
    let mut changed = base.clone();
    for one in NUMBERS..3 * NUMBERS {
        for two in one + 1..3 * NUMBERS {
            for (first, second) in TWO_NUMBERS {
                changed.copy_from_slice(&base);
                put_number(&mut changed, one, first);
                put_number(&mut changed, two, second);
                calls.call([&changed], [needed(base.len())]);
            }
        }
    }
}

/// A well-formed system of numbers with letters, then the same with one fault and with two of every kind in
/// every record, and all these too short and too long.
fn sound_and_refused_systems_of_numbers() -> Vec<Vec<u8>> {
    let sound = system_of_numbers(&[&[2], &[1; LONGEST], &[-1, 1], &[3, -26]]);
    let mut faults = Vec::new();
    for record in 0..4 {
        for (index, number) in [(0, 27), (2, 1001), (9, 300), (LONGEST, 1)] {
            faults.push((NUMBERS * record + index, number));
        }
    }
    let mut systems = vec![sound.clone()];
    for (index, number) in faults.iter().copied() {
        let mut one_fault = sound.clone();
        put_number(&mut one_fault, index, number);
        for (other_index, other_number) in faults.iter().copied() {
            let mut two_faults = one_fault.clone();
            put_number(&mut two_faults, other_index, other_number);
            systems.push(two_faults);
        }
    }
    for base in systems.clone() {
        systems.push(base[..base.len() - 1].to_vec());
        let too_long = base.repeat(5);
        for more in [1, NUMBERS_RECORD, NUMBERS_RECORD + 1] {
            systems.push(too_long[..LONGEST_SYSTEM_OF_NUMBERS + more].to_vec());
        }
    }
    systems
}

/// Random systems with little and with much that cancels, with letters alone and with numbers to 1,000,
/// sound and damaged, with any room.
fn random_systems(calls: &mut OfNumbers, needed: fn(usize) -> usize) {
    let mut random = Random::new(1204);
    for largest in LARGEST_GENERATORS {
        for round in 0..6_000 {
            let mut numbers = random.system_of_numbers(largest);
            let exact = needed(numbers.len());
            calls.call([&numbers], [exact + random.below(80)]);
            if round % 16 == 0 {
                calls.call_with_all_rooms([&numbers], [exact]);
            }
            if round % 2 == 0 {
                damage_numbers(&mut random, &mut numbers);
            } else {
                damage(&mut random, &mut numbers);
            }
            let room = any_room(&mut random, exact);
            calls.call([&numbers], [room]);
        }
    }
}

/// Puts telling numbers or any numbers in a few random places.
fn damage_numbers(random: &mut Random, numbers: &mut [u8]) {
    if numbers.is_empty() {
        return;
    }
    for _ in 0..random.between(1, 4) {
        let index = random.below(numbers.len() / NUMBER);
        let number = match random.below(3) {
            0 => random.number() as i16,
            _ => TELLING_NUMBERS[random.below(TELLING_NUMBERS.len())],
        };
        put_number(numbers, index, number);
    }
}
