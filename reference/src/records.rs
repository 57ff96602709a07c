//! Records of 64 bytes and systems of at most 16 of them: their checks, reading and writing.
//! A record is letters, then full stops up to byte 62, then a line feed at byte 63.

use crate::refusals::*;
use crate::words::{Word, LONGEST};

/// The length of a record in bytes.
pub const RECORD: usize = 64;
/// The most records that a system may have.
pub const MOST_RECORDS: usize = 16;
/// The most bytes that a system may have, those of 16 records.
pub const LONGEST_SYSTEM: usize = RECORD * MOST_RECORDS;

const STOP: u8 = b'.';
const LINE_FEED: u8 = b'\n';

/// A freely reduced word for each slot.
#[derive(Clone, Copy, Debug)]
pub struct System {
    words: [Word; MOST_RECORDS],
    count: usize,
}

/// The letters of a record, or the first of the rules 3, 4 and 5 that it breaks with its first
/// failing byte.
fn record_letters(record: &[u8; RECORD]) -> Result<&[u8], Refusal> {
    let (&last, bytes) = record.split_last().expect("a record has 64 bytes");
    if last != LINE_FEED {
        return Err(Refusal::new(NO_LINE_FEED, LONGEST));
    }
    let neither = |&byte: &u8| !byte.is_ascii_alphabetic() && byte != STOP;
    if let Some(place) = bytes.iter().position(neither) {
        return Err(Refusal::new(NEITHER_LETTER_NOR_STOP, place));
    }
    let first_stop = bytes.iter().position(|&byte| byte == STOP);
    let (letters, stops) = bytes.split_at(first_stop.unwrap_or(LONGEST));
    if let Some(place) = stops.iter().position(u8::is_ascii_alphabetic) {
        return Err(Refusal::new(LETTER_AFTER_STOP, letters.len() + place));
    }
    Ok(letters)
}

/// The records of a system, by rules 1 and 2, of which 2 comes first.
fn records_of_system(system: &[u8]) -> Result<&[[u8; RECORD]], Refusal> {
    if system.len() > LONGEST_SYSTEM {
        return Err(Refusal::new(SYSTEM_TOO_LONG, 0));
    }
    let (records, rest) = system.as_chunks::<RECORD>();
    if !rest.is_empty() {
        return Err(Refusal::new(SYSTEM_UNEVEN, 0));
    }
    Ok(records)
}

/// The letters of the record in a slot, by rules 3 to 5 with the place in the system.
fn letters_in_slot(slot: usize, record: &[u8; RECORD]) -> Result<&[u8], Refusal> {
    record_letters(record).map_err(|fault| Refusal {
        place: fault.place + (RECORD * slot) as u64,
        ..fault
    })
}

/// Checks a system by rules 1 to 5, of which 2 comes first, and freely reduces its words.
pub fn read_system(system: &[u8]) -> Result<System, Refusal> {
    let records = records_of_system(system)?;
    let mut system = System {
        words: [Word::EMPTY; MOST_RECORDS],
        count: records.len(),
    };
    for (slot, record) in records.iter().enumerate() {
        system.words[slot] = Word::freely_reduced(letters_in_slot(slot, record)?);
    }
    Ok(system)
}

/// Checks a system by rules 1 to 5, of which 2 comes first, and gives the letters of each word as they
/// stand there.
pub fn read_system_as_given(system: &[u8]) -> Result<Vec<&[u8]>, Refusal> {
    let records = records_of_system(system)?.iter().enumerate();
    let letters = records.map(|(slot, record)| letters_in_slot(slot, record));
    letters.collect()
}

/// The letters of a target or product, or refusal 6.
pub fn read_target_or_product(bytes: &[u8]) -> Result<&[u8], Refusal> {
    let malformed = |place| Refusal {
        number: TARGET_OR_PRODUCT_MALFORMED,
        place,
    };
    let record = bytes.try_into().map_err(|_| malformed(0))?;
    record_letters(record).map_err(|fault| malformed(fault.place))
}

/// Checks that a buffer for words has room for this many records, by rule 10.
pub fn check_room_for_words(words: &[u8], records: usize) -> Result<(), Refusal> {
    if words.len() < RECORD * records {
        return Err(Refusal::new(WORDS_BUFFER_SHORT, 0));
    }
    Ok(())
}

/// Checks that a product buffer has room for a record, by rule 11.
pub fn check_room_for_product(product: &[u8]) -> Result<(), Refusal> {
    if product.len() < RECORD {
        return Err(Refusal::new(PRODUCT_BUFFER_SHORT, 0));
    }
    Ok(())
}

/// The slot that a letter names, if it is one of this many slots.
pub fn slot_named(letter: u8, slots: usize) -> Option<usize> {
    let slot = usize::from(letter.checked_sub(b'a')?);
    (slot < slots).then_some(slot)
}

/// Writes at most 63 letters into the first 64 bytes of a buffer that is at least that long.
#[inline]
pub fn write_record(letters: &[u8], buffer: &mut [u8]) {
    buffer[..letters.len()].copy_from_slice(letters);
    buffer[letters.len()..LONGEST].fill(STOP);
    buffer[LONGEST] = LINE_FEED;
}

/// The well-formed record of at most 63 letters.
pub fn record(letters: impl AsRef<[u8]>) -> [u8; RECORD] {
    let mut record = [0; RECORD];
    write_record(letters.as_ref(), &mut record);
    record
}

/// The system of the words given as texts.
pub fn system(texts: &[&str]) -> Vec<u8> {
    texts.iter().flat_map(record).collect()
}

/// The freely reduced words of a well-formed system.
pub fn freely_reduced(system: &[u8]) -> System {
    read_system(system).expect("the system is well formed")
}

impl System {
    /// The words of the slots in order.
    #[inline]
    pub fn words(&self) -> &[Word] {
        &self.words[..self.count]
    }

    /// The words of the slots in order, to be changed.
    #[inline]
    pub fn words_mut(&mut self) -> &mut [Word] {
        &mut self.words[..self.count]
    }

    /// The number of slots.
    pub fn count(&self) -> usize {
        self.count
    }

    /// The number of slots that are not blank.
    pub fn rank(&self) -> usize {
        self.words().iter().filter(|word| !word.is_empty()).count()
    }

    /// Writes each word into the 64 bytes of its own slot.
    #[inline]
    pub fn write(&self, buffer: &mut [u8]) {
        for (word, record) in self.words().iter().zip(buffer.chunks_exact_mut(RECORD)) {
            write_record(word.letters(), record);
        }
    }
}
