//! Records of 128 bytes that keep a word as signed generator numbers, and systems of at most 16 of them:
//! their checks, reading and writing. A record is 64 signed numbers of 16 bits, low byte first: up to 63
//! numbers from 1 to 1,000 or from -1 to -1,000, then zeros, the last always zero.

use crate::records::MOST_RECORDS;
use crate::refusals::*;
use crate::words::LONGEST;
use std::array::from_fn;

/// How many numbers a record has, with the zero at its end.
pub const NUMBERS: usize = 64;
/// The length of a number in bytes.
pub const NUMBER: usize = 2;
/// The length of a record of numbers in bytes.
pub const NUMBERS_RECORD: usize = NUMBER * NUMBERS;
/// The most bytes that a system of numbers may have, those of 16 records.
pub const LONGEST_SYSTEM_OF_NUMBERS: usize = NUMBERS_RECORD * MOST_RECORDS;
/// The largest number of a generator.
pub const LARGEST_NUMBER: i16 = 1000;

/// The numbers of a record.
pub type Row = [i16; NUMBERS];

/// The numbers that the bytes of a record are, low byte first.
fn row_of(record: &[u8; NUMBERS_RECORD]) -> Row {
    from_fn(|index| i16::from_le_bytes([record[NUMBER * index], record[NUMBER * index + 1]]))
}

/// Whether a number may stand in a record: 0, from 1 to 1,000, or from -1 to -1,000.
fn is_in_range(number: i16) -> bool {
    (-LARGEST_NUMBER..=LARGEST_NUMBER).contains(&number)
}

/// How many numbers stand before the first zero, or before the last number where none is zero.
pub fn length_of_row(row: &Row) -> usize {
    let first_zero = row.iter().position(|&number| number == 0);
    first_zero.unwrap_or(LONGEST)
}

/// Which number of a row is the first that breaks the layout, if one does: it is out of range, or it is not
/// zero and stands after a zero or last.
fn first_out_of_layout(row: &Row) -> Option<usize> {
    let length = length_of_row(row);
    (0..NUMBERS).find(|&index| !is_in_range(row[index]) || index >= length && row[index] != 0)
}

/// The refusal with this number at the first byte of a number of the record in a slot.
pub fn refusal_at_number(number: u64, slot: usize, index: usize) -> Refusal {
    Refusal::new(number, NUMBERS_RECORD * slot + NUMBER * index)
}

/// The records of a system of numbers, by rules 1 and 2, of which 2 comes first.
pub fn records_of_numbers(numbers: &[u8]) -> Result<&[[u8; NUMBERS_RECORD]], Refusal> {
    if numbers.len() > LONGEST_SYSTEM_OF_NUMBERS {
        return Err(Refusal::new(SYSTEM_TOO_LONG, 0));
    }
    let (records, rest) = numbers.as_chunks::<NUMBERS_RECORD>();
    if !rest.is_empty() {
        return Err(Refusal::new(SYSTEM_UNEVEN, 0));
    }
    Ok(records)
}

/// The numbers of the record in a slot, by rule 19.
pub fn read_row(slot: usize, record: &[u8; NUMBERS_RECORD]) -> Result<Row, Refusal> {
    let row = row_of(record);
    match first_out_of_layout(&row) {
        Some(index) => Err(refusal_at_number(NUMBERS_MALFORMED, slot, index)),
        None => Ok(row),
    }
}

/// Checks that a buffer for numbers has room for this many records, by rule 10.
pub fn check_room_for_numbers(numbers: &[u8], records: usize) -> Result<(), Refusal> {
    if numbers.len() < NUMBERS_RECORD * records {
        return Err(Refusal::new(WORDS_BUFFER_SHORT, 0));
    }
    Ok(())
}

/// Writes the numbers of a row into the first 128 bytes of a buffer that is at least that long.
pub fn write_row(row: &Row, buffer: &mut [u8]) {
    for (number, bytes) in row.iter().zip(buffer.chunks_exact_mut(NUMBER)) {
        bytes.copy_from_slice(&number.to_le_bytes());
    }
}

/// The record of at most 64 numbers, well formed or not, with zeros behind.
pub fn record_of_numbers(numbers: impl AsRef<[i16]>) -> [u8; NUMBERS_RECORD] {
    let numbers = numbers.as_ref();
    let mut row = [0; NUMBERS];
    row[..numbers.len()].copy_from_slice(numbers);
    let mut record = [0; NUMBERS_RECORD];
    write_row(&row, &mut record);
    record
}

/// The system of numbers of such records.
pub fn system_of_numbers(rows: &[&[i16]]) -> Vec<u8> {
    rows.iter().flat_map(record_of_numbers).collect()
}
