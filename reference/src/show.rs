//! The call show: a part of one of two lent systems.
//! Only the first byte of the reduced record decides which of the two it is.

use crate::records::{slot_named, MOST_RECORDS, RECORD};

/// The reduced record of a slot, or the given record where that slot is blank, or an empty part.
pub fn show<'a>(reduced: &'a [u8], given: &'a [u8], slot: u8) -> &'a [u8] {
    if reduced.len() != given.len() || !reduced.len().is_multiple_of(RECORD) {
        return &[];
    }
    let slots = MOST_RECORDS.min(reduced.len() / RECORD);
    let Some(slot) = slot_named(slot, slots) else {
        return &[];
    };
    let part = RECORD * slot..RECORD * (slot + 1);
    if reduced[part.start] == b'.' {
        &given[part]
    } else {
        &reduced[part]
    }
}
