//! Why a call is turned down: the numbers of the refusals that carry one, and their place.
//! The refusal of show has no answer that could carry its number, so it has no name here.

pub const SYSTEM_UNEVEN: u64 = 1;
pub const SYSTEM_TOO_LONG: u64 = 2;
pub const NO_LINE_FEED: u64 = 3;
pub const NEITHER_LETTER_NOR_STOP: u64 = 4;
pub const LETTER_AFTER_STOP: u64 = 5;
pub const TARGET_OR_PRODUCT_MALFORMED: u64 = 6;
pub const LOG_UNEVEN: u64 = 7;
pub const LOG_RECORD_MALFORMED: u64 = 8;
pub const SLOT_MISSING: u64 = 9;
pub const WORDS_BUFFER_SHORT: u64 = 10;
pub const PRODUCT_BUFFER_SHORT: u64 = 11;
pub const WORD_TOO_LONG: u64 = 12;
pub const LOG_BUFFER_SHORT: u64 = 13;
pub const SYSTEM_NOT_REDUCED: u64 = 15;
pub const TEXT_MALFORMED: u64 = 16;
pub const NESTING_TOO_DEEP: u64 = 17;
pub const EXPONENT_OUT_OF_RANGE: u64 = 18;
pub const NUMBERS_MALFORMED: u64 = 19;
pub const NUMBER_WITHOUT_LETTER: u64 = 20;
pub const EDGE_TABLE_SHORT: u64 = 21;
pub const LENGTH_DIFFERS: u64 = 22;
/// The highest number of a refusal.
pub const HIGHEST: u64 = LENGTH_DIFFERS;

/// A refusal's number and place.
#[derive(Clone, Copy, Debug, PartialEq, Eq)]
pub struct Refusal {
    pub number: u64,
    pub place: u64,
}

impl Refusal {
    /// The refusal with this number at this place.
    pub const fn new(number: u64, place: usize) -> Refusal {
        Refusal {
            number,
            place: place as u64,
        }
    }
}
