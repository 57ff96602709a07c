//! Logs changed in one place or in several: lengths that are not those of the run, letters
//! exchanged, moves exchanged, and every byte of a log record damaged.

use crate::inputs::{any_bytes, damage, TELLING_BYTES};
use subgroups_reference::logs::{read_log, write_log, LogRecord, LOG_RECORD};
use subgroups_reference::random::Random;
use subgroups_reference::records::MOST_RECORDS;
use subgroups_reference::words::LONGEST;

/// The log records of a log that is well formed over the longest system.
pub fn records_of_log(log: &[u8]) -> Vec<LogRecord> {
    read_log(log, MOST_RECORDS).expect("the log is well formed")
}

/// The log with another length in the log record at this place among them.
pub fn with_length(log: &[u8], place: usize, length: usize) -> Vec<u8> {
    let mut records = records_of_log(log);
    records[place].length = length;
    write_log(&records)
}

/// The log with the letter exchanged in each log record that is chosen by its place.
pub fn with_letters_exchanged(log: &[u8], mut is_chosen: impl FnMut(usize) -> bool) -> Vec<u8> {
    let mut records = records_of_log(log);
    for (place, record) in records.iter_mut().enumerate() {
        if is_chosen(place) {
            record.rule = record.rule.exchanged();
        }
    }
    write_log(&records)
}

/// Lengths that are easily taken for this one: one and ten off, the digits exchanged, and the least and
/// the greatest of words and of two digits.
pub fn wrong_lengths(right: usize) -> Vec<usize> {
    let near = [1, 9, 10, 11, 16, 32, 64];
    let less = near.iter().filter_map(|&off| right.checked_sub(off));
    let more = near.iter().map(|&off| right + off);
    let exchanged = 10 * (right % 10) + right / 10;
    let others = [0, exchanged, LONGEST, LONGEST + 1, 99];
    let mut lengths: Vec<usize> = less.chain(more).chain(others).collect();
    lengths.retain(|&length| length != right && length < 100);
    lengths.sort_unstable();
    lengths.dedup();
    lengths
}

/// A length of two digits that is not this one: often a near one, and often one of no word.
pub fn wrong_length(random: &mut Random, right: usize) -> usize {
    let lengths = wrong_lengths(right);
    loop {
        let length = match random.below(4) {
            0 => random.below(100),
            1 => random.between(LONGEST + 1, 99),
            _ => lengths[random.below(lengths.len())],
        };
        if length != right {
            return length;
        }
    }
}

/// A log of at least one move with one or two wrong lengths, another move with the same length, or two
/// log records exchanged.
pub fn with_other_lengths_or_moves(random: &mut Random, log: &[u8], slots: usize) -> Vec<u8> {
    let mut records = records_of_log(log);
    let places = [(); 2].map(|()| random.below(records.len()));
    match random.below(6) {
        0 => records[places[0]].step = random.any_move(slots),
        1 => records.swap(places[0], places[1]),
        choice => {
            for &place in &places[..1 + choice / 5] {
                records[place].length = wrong_length(random, records[place].length);
            }
        }
    }
    write_log(&records)
}

/// Lends the log with every byte of the log record at this place damaged, one after the other: with a
/// telling byte, with one less and one more, and with one bit changed.
pub fn for_each_damaged_byte(
    random: &mut Random,
    log: &[u8],
    place: usize,
    mut lend: impl FnMut(&[u8]),
) {
    for byte in LOG_RECORD * place..LOG_RECORD * (place + 1) {
        let telling = TELLING_BYTES[random.below(TELLING_BYTES.len())];
        let bit = 1 << random.below(8);
        for value in [
            telling,
            log[byte].wrapping_sub(1),
            log[byte].wrapping_add(1),
            log[byte] ^ bit,
        ] {
            let mut damaged = log.to_vec();
            damaged[byte] = value;
            lend(&damaged);
        }
    }
}

/// The log with bytes damaged in a few random places, or cut off at any length, or longer by any bytes.
pub fn damaged(random: &mut Random, log: &[u8]) -> Vec<u8> {
    let mut damaged = log.to_vec();
    match random.below(6) {
        0 => damaged.truncate(random.below(log.len() + 1)),
        1 => {
            let more = random.between(1, 2 * LOG_RECORD);
            damaged.extend(any_bytes(random, more));
        }
        _ => damage(random, &mut damaged),
    }
    damaged
}
