//! The entries of the proved static library, as C sees them, each beside the same call of the Rust
//! version: inputs and buffers as arrays of slices, and the answer as seven numbers.

use std::slice::from_raw_parts_mut;
use subgroups_reference as reference;
use subgroups_reference::{Answer, Direction, Edge};

/// The answer's seven numbers, as the library writes them.
pub type Numbers = [u64; 7];

#[link(name = "subgroups_c", kind = "static")]
extern "C" {
    fn subgroups_tidy(
        system: *const u8,
        system_len: usize,
        words: *mut u8,
        words_len: usize,
        answer: *mut Numbers,
    );
    fn subgroups_replay(
        system: *const u8,
        system_len: usize,
        log: *const u8,
        log_len: usize,
        backward: u8,
        words: *mut u8,
        words_len: usize,
        answer: *mut Numbers,
    );
    fn subgroups_multiply(
        system: *const u8,
        system_len: usize,
        product: *const u8,
        product_len: usize,
        word: *mut u8,
        word_len: usize,
        answer: *mut Numbers,
    );
    fn subgroups_test(system: *const u8, system_len: usize, answer: *mut Numbers);
    fn subgroups_reduce(
        system: *const u8,
        system_len: usize,
        words: *mut u8,
        words_len: usize,
        log: *mut u8,
        log_len: usize,
        answer: *mut Numbers,
    );
    fn subgroups_ask(
        system: *const u8,
        system_len: usize,
        target: *const u8,
        target_len: usize,
        product: *mut u8,
        product_len: usize,
        answer: *mut Numbers,
    );
    fn subgroups_member(
        system: *const u8,
        system_len: usize,
        target: *const u8,
        target_len: usize,
        words: *mut u8,
        words_len: usize,
        log: *mut u8,
        log_len: usize,
        product: *mut u8,
        product_len: usize,
        answer: *mut Numbers,
    );
    fn subgroups_read_text(
        text: *const u8,
        text_len: usize,
        word: *mut u8,
        word_len: usize,
        answer: *mut Numbers,
    );
    fn subgroups_write_text(
        word: *const u8,
        word_len: usize,
        text: *mut u8,
        text_len: usize,
        length: *mut u64,
        answer: *mut Numbers,
    );
    fn subgroups_to_numbers(
        system: *const u8,
        system_len: usize,
        numbers: *mut u8,
        numbers_len: usize,
        answer: *mut Numbers,
    );
    fn subgroups_from_numbers(
        numbers: *const u8,
        numbers_len: usize,
        words: *mut u8,
        words_len: usize,
        answer: *mut Numbers,
    );
    fn subgroups_tidy_numbers(
        numbers: *const u8,
        numbers_len: usize,
        tidied: *mut u8,
        tidied_len: usize,
        answer: *mut Numbers,
    );
    fn subgroups_trace(
        system: *const u8,
        system_len: usize,
        target: *const u8,
        target_len: usize,
        table: *mut Edge,
        edges: usize,
        answer: *mut Numbers,
    );
}

/// A call of the proved library.
pub type ProvedCall<const INPUTS: usize, const BUFFERS: usize> =
    fn([&[u8]; INPUTS], [&mut [u8]; BUFFERS], &mut Numbers);

/// A call of the Rust version.
pub type RustCall<const INPUTS: usize, const BUFFERS: usize> =
    fn([&[u8]; INPUTS], [&mut [u8]; BUFFERS]) -> Answer;

/// One entry on both sides, with its number of inputs and its number of buffers that are written.
#[derive(Clone, Copy)]
pub struct Entry<const INPUTS: usize, const BUFFERS: usize> {
    pub proved: ProvedCall<INPUTS, BUFFERS>,
    pub rust: RustCall<INPUTS, BUFFERS>,
}

/// Tidy: the system; the words buffer.
pub const TIDY: Entry<1, 1> = Entry {
    proved: |[system], [words], answer| unsafe {
        subgroups_tidy(
            system.as_ptr(),
            system.len(),
            words.as_mut_ptr(),
            words.len(),
            answer,
        );
    },
    rust: |[system], [words]| reference::tidy(system, words),
};

/// Replay: the system, the log, and the byte that asks for backward if it is not 0; the words buffer.
pub const REPLAY: Entry<3, 1> = Entry {
    proved: |[system, log, backward], [words], answer| unsafe {
        subgroups_replay(
            system.as_ptr(),
            system.len(),
            log.as_ptr(),
            log.len(),
            backward[0],
            words.as_mut_ptr(),
            words.len(),
            answer,
        );
    },
    rust: |[system, log, backward], [words]| {
        let direction = Direction::asked_for_by(backward[0]);
        reference::replay(system, log, direction, words)
    },
};

/// Multiply: the system and the product; the word buffer.
pub const MULTIPLY: Entry<2, 1> = Entry {
    proved: |[system, product], [word], answer| unsafe {
        subgroups_multiply(
            system.as_ptr(),
            system.len(),
            product.as_ptr(),
            product.len(),
            word.as_mut_ptr(),
            word.len(),
            answer,
        );
    },
    rust: |[system, product], [word]| reference::multiply(system, product, word),
};

/// Test: the system; no buffer.
pub const TEST: Entry<1, 0> = Entry {
    proved: |[system], [], answer| unsafe {
        subgroups_test(system.as_ptr(), system.len(), answer);
    },
    rust: |[system], []| reference::test(system),
};

/// Reduce: the system; the words buffer and the log.
pub const REDUCE: Entry<1, 2> = Entry {
    proved: |[system], [words, log], answer| unsafe {
        subgroups_reduce(
            system.as_ptr(),
            system.len(),
            words.as_mut_ptr(),
            words.len(),
            log.as_mut_ptr(),
            log.len(),
            answer,
        );
    },
    rust: |[system], [words, log]| reference::reduce(system, words, log),
};

/// Ask: the system and the target; the product buffer.
pub const ASK: Entry<2, 1> = Entry {
    proved: |[system, target], [product], answer| unsafe {
        subgroups_ask(
            system.as_ptr(),
            system.len(),
            target.as_ptr(),
            target.len(),
            product.as_mut_ptr(),
            product.len(),
            answer,
        );
    },
    rust: |[system, target], [product]| reference::ask(system, target, product),
};

/// Member: the system and the target; the words buffer, the log and the product buffer.
pub const MEMBER: Entry<2, 3> = Entry {
    proved: |[system, target], [words, log, product], answer| unsafe {
        subgroups_member(
            system.as_ptr(),
            system.len(),
            target.as_ptr(),
            target.len(),
            words.as_mut_ptr(),
            words.len(),
            log.as_mut_ptr(),
            log.len(),
            product.as_mut_ptr(),
            product.len(),
            answer,
        );
    },
    rust: |[system, target], [words, log, product]| {
        reference::member(system, target, words, log, product)
    },
};

/// Read text: the text; the word buffer.
pub const READ_TEXT: Entry<1, 1> = Entry {
    proved: |[text], [word], answer| unsafe {
        subgroups_read_text(
            text.as_ptr(),
            text.len(),
            word.as_mut_ptr(),
            word.len(),
            answer,
        );
    },
    rust: |[text], [word]| reference::read_text(text, word),
};

/// How many bytes are lent for the number that is the length of a text.
pub const LENGTH: usize = size_of::<u64>();

/// Write text: the word; the text buffer, and the bytes of the number that is the length of the text.
pub const WRITE_TEXT: Entry<1, 2> = Entry {
    proved: |[word], [text, length], answer| unsafe {
        let number = length.as_mut_ptr().cast::<u64>();
        assert!(number.is_aligned() && length.len() == LENGTH);
        subgroups_write_text(
            word.as_ptr(),
            word.len(),
            text.as_mut_ptr(),
            text.len(),
            number,
            answer,
        );
    },
    rust: |[word], [text, length]| put_length(reference::write_text(word, text), length),
};

/// Puts the length of a text into its bytes and gives the answer alone.
pub fn put_length((answer, number): (Answer, u64), length: &mut [u8]) -> Answer {
    length.copy_from_slice(&number.to_ne_bytes());
    answer
}

/// To numbers: the system; the numbers buffer.
pub const TO_NUMBERS: Entry<1, 1> = Entry {
    proved: |[system], [numbers], answer| unsafe {
        subgroups_to_numbers(
            system.as_ptr(),
            system.len(),
            numbers.as_mut_ptr(),
            numbers.len(),
            answer,
        );
    },
    rust: |[system], [numbers]| reference::to_numbers(system, numbers),
};

/// From numbers: the system of numbers; the words buffer.
pub const FROM_NUMBERS: Entry<1, 1> = Entry {
    proved: |[numbers], [words], answer| unsafe {
        subgroups_from_numbers(
            numbers.as_ptr(),
            numbers.len(),
            words.as_mut_ptr(),
            words.len(),
            answer,
        );
    },
    rust: |[numbers], [words]| reference::from_numbers(numbers, words),
};

/// Tidy numbers: the system of numbers; the buffer for the tidied one.
pub const TIDY_NUMBERS: Entry<1, 1> = Entry {
    proved: |[numbers], [tidied], answer| unsafe {
        subgroups_tidy_numbers(
            numbers.as_ptr(),
            numbers.len(),
            tidied.as_mut_ptr(),
            tidied.len(),
            answer,
        );
    },
    rust: |[numbers], [tidied]| reference::tidy_numbers(numbers, tidied),
};

/// How many bytes are lent for an edge of a table.
pub const EDGE: usize = size_of::<Edge>();

/// The edges that these bytes are lent for.
fn edges(table: &mut [u8]) -> &mut [Edge] {
    let first = table.as_mut_ptr().cast::<Edge>();
    assert!(first.is_aligned() && table.len().is_multiple_of(EDGE));
    // An edge is three numbers without gaps, so any bytes are edges.
    unsafe { from_raw_parts_mut(first, table.len() / EDGE) }
}

/// Trace: the system and the target; the bytes of the table.
pub const TRACE: Entry<2, 1> = Entry {
    proved: |[system, target], [table], answer| unsafe {
        let table = edges(table);
        subgroups_trace(
            system.as_ptr(),
            system.len(),
            target.as_ptr(),
            target.len(),
            table.as_mut_ptr(),
            table.len(),
            answer,
        );
    },
    rust: |[system, target], [table]| reference::trace(system, target, edges(table)),
};
