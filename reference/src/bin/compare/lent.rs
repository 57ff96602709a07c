//! Buffers to be lent: the lent part stands between margins, and all is filled with a pattern
//! of bytes that no call writes, so that every byte written or left alone is seen.

use crate::entries::Numbers;
use std::ops::Range;
use subgroups_reference::random::Random;
use subgroups_reference::Answer;

/// The length of the margin on either side of the lent part.
const MARGIN: usize = 64;

/// What stands in and around an answer before the call.
const UNWRITTEN: u64 = 0xA5A5_5A5A_C3C3_3C3C;

/// A buffer of which a part in the middle is lent.
#[derive(Default)]
pub struct Lent {
    bytes: Vec<u8>,
    length: usize,
}

impl Lent {
    /// A buffer filled with the pattern, with a lent part of this length.
    pub fn filled(length: usize) -> Lent {
        let mut lent = Lent::default();
        lent.fill(length);
        lent
    }

    /// A buffer with a lent part that holds these bytes.
    pub fn copied(bytes: &[u8]) -> Lent {
        let mut lent = Lent::default();
        lent.copy(bytes);
        lent
    }

    /// Fills the buffer with the pattern and sets the length of the lent part.
    fn fill(&mut self, length: usize) {
        self.set_length(length);
        self.put_pattern(0..length + 2 * MARGIN);
    }

    /// Fills the margins with the pattern and copies these bytes into the lent part.
    fn copy(&mut self, bytes: &[u8]) {
        self.set_length(bytes.len());
        let behind = MARGIN + bytes.len();
        self.put_pattern(0..MARGIN);
        self.put_pattern(behind..behind + MARGIN);
        self.part_mut().copy_from_slice(bytes);
    }

    /// Sets the length of the lent part.
    fn set_length(&mut self, length: usize) {
        self.bytes.resize(length + 2 * MARGIN, 0);
        self.length = length;
    }

    /// Puts the pattern at these places.
    fn put_pattern(&mut self, places: Range<usize>) {
        let first = places.start;
        for (number, byte) in self.bytes[places].iter_mut().enumerate() {
            *byte = pattern(first + number);
        }
    }

    /// The lent part, to be written.
    pub fn part_mut(&mut self) -> &mut [u8] {
        &mut self.bytes[MARGIN..MARGIN + self.length]
    }

    /// The lent part.
    pub fn part(&self) -> &[u8] {
        &self.bytes[MARGIN..MARGIN + self.length]
    }

    /// Whether these bytes stand in the lent part and nothing is written beside it.
    pub fn holds_just(&self, bytes: &[u8]) -> bool {
        let mut beside = (0..MARGIN).chain(MARGIN + self.length..self.bytes.len());
        self.part() == bytes && beside.all(|place| self.bytes[place] == pattern(place))
    }
}

/// Two buffers alike, with their name: one to be lent to the proved library, one to the Rust version.
pub struct Pair {
    pub name: &'static str,
    pub proved: Lent,
    pub rust: Lent,
}

impl Pair {
    /// Two buffers from which nothing is lent yet.
    pub fn new(name: &'static str) -> Pair {
        Pair {
            name,
            proved: Lent::default(),
            rust: Lent::default(),
        }
    }

    /// Fills both with the pattern and sets the length of their lent parts.
    pub fn fill(&mut self, length: usize) {
        self.proved.fill(length);
        self.rust.fill(length);
    }

    /// Fills both with the pattern and copies an input into their lent parts.
    pub fn copy(&mut self, input: &[u8]) {
        self.proved.copy(input);
        self.rust.copy(input);
    }

    /// The first byte in which the two differ, counted from the lent part's start.
    pub fn difference(&self) -> Option<(isize, u8, u8)> {
        self.difference_within(0..self.rust.bytes.len())
    }

    /// The first byte beside the lent parts in which the two differ, counted from the lent part's start.
    pub fn difference_beside(&self) -> Option<(isize, u8, u8)> {
        let behind = MARGIN + self.rust.length;
        let before = self.difference_within(0..MARGIN);
        before.or_else(|| self.difference_within(behind..behind + MARGIN))
    }

    /// The first of these bytes in which the two differ, counted from the lent part's start.
    fn difference_within(&self, mut places: Range<usize>) -> Option<(isize, u8, u8)> {
        let (one, two) = (&self.proved.bytes, &self.rust.bytes);
        if one[places.clone()] == two[places.clone()] {
            return None;
        }
        let place = places.find(|&place| one[place] != two[place])?;
        let counted = place as isize - MARGIN as isize;
        Some((counted, one[place], two[place]))
    }
}

/// What buffers hold before a call that are working space: bytes that are cut anew for each call from
/// those given, at a random place.
pub struct Contents {
    bytes: Vec<u8>,
    /// The number of bytes of which the place is a multiple.
    step: usize,
    place: usize,
    random: Random,
}

impl Contents {
    /// The contents that are cut from these bytes, at places by steps of this many.
    pub fn new(bytes: Vec<u8>, step: usize, random: Random) -> Contents {
        Contents {
            bytes,
            step,
            place: 0,
            random,
        }
    }

    /// Goes on to another place for a call to which buffers of at most this length are lent.
    pub fn move_on(&mut self, longest: usize) {
        let places = (self.bytes.len() - longest) / self.step + 1;
        self.place = self.step * self.random.below(places);
    }

    /// The contents of a buffer of this length.
    pub fn cut(&self, length: usize) -> &[u8] {
        &self.bytes[self.place..self.place + length]
    }
}

/// Room for the library's answer, with a number on either side that no call may write.
#[repr(C)]
pub struct LentAnswer {
    before: u64,
    pub numbers: Numbers,
    after: u64,
}

impl LentAnswer {
    /// Room in which nothing is written yet.
    pub fn new() -> LentAnswer {
        LentAnswer {
            before: UNWRITTEN,
            numbers: [UNWRITTEN; 7],
            after: UNWRITTEN,
        }
    }

    /// Whether the library has written the numbers of this answer and nothing beside them.
    pub fn holds_just(&self, answer: Answer) -> bool {
        self.numbers == answer.numbers() && self.alone_written()
    }

    /// Whether the numbers on either side are as they were.
    pub fn alone_written(&self) -> bool {
        self.before == UNWRITTEN && self.after == UNWRITTEN
    }
}

/// The pattern's byte at a place, never a letter, a digit, another sign of texts, a full stop or a
/// line feed.
fn pattern(place: usize) -> u8 {
    0x80 | (place.wrapping_mul(37) + (place >> 7)) as u8
}
