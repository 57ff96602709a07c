//! The comparison of one entry: the buffers that are lent again and again, the two calls, the count
//! of those that agreed, and the report of the first that did not, which ends the program.

use crate::by_length::Form;
use crate::entries::Entry;
use crate::inputs::{for_each_length, rooms, EVERY_LENGTH, LONG_LENGTHS};
use crate::lent::{Contents, LentAnswer, Pair};
use crate::move_counts::{MoveCounts, LOG};
use crate::numbers::for_each_length_of_numbers;
use std::array::from_fn;
use std::collections::{BTreeMap, BTreeSet};
use std::process::exit;
use subgroups_reference::answers::{Answer, REFUSED};
use subgroups_reference::records::RECORD;
use subgroups_reference::refusals::HIGHEST;

/// The names of the verdicts, in the order of their numbers.
const VERDICTS: [&str; 3] = ["done", "member", "not a member"];

/// What was seen in the calls that agreed.
#[derive(Default)]
pub struct Seen {
    pub calls: u64,
    verdicts: [u64; 3],
    refusals: [u64; HIGHEST as usize + 1],
    /// How many calls there were of each kind, where kinds are told apart.
    kinds: BTreeMap<String, u64>,
    /// How many systems were reduced.
    pub reduced: u64,
}

impl Seen {
    /// How many calls were not refused.
    pub fn not_refused(&self) -> u64 {
        self.verdicts.iter().sum()
    }

    /// How many calls were refused with one of these numbers.
    pub fn refused_with(&self, numbers: &[u64]) -> u64 {
        let counts = numbers.iter().map(|&number| self.refusals[number as usize]);
        counts.sum()
    }
}

/// Another check of a call, on what the Rust version was lent and has left.
pub type Check<const INPUTS: usize, const BUFFERS: usize> =
    fn([&[u8]; INPUTS], [&[u8]; BUFFERS], Answer) -> Result<(), &'static str>;

/// What kind of call one with these inputs and this answer was.
pub type KindOfCall<const INPUTS: usize> = fn([&[u8]; INPUTS], Answer) -> String;

/// An entry with its buffers, the answers of the last call, and what was seen so far.
pub struct Comparison<const INPUTS: usize, const BUFFERS: usize> {
    name: &'static str,
    entry: Entry<INPUTS, BUFFERS>,
    /// What the first input consists of, if it is a system.
    system: Option<Form>,
    inputs: [Pair; INPUTS],
    buffers: [Pair; BUFFERS],
    /// What the buffers hold before a call, if they are working space, of which nothing is promised but
    /// that a refusal leaves it as it was.
    contents: Option<Contents>,
    proved: LentAnswer,
    rust: Answer,
    /// The check of calls that were not refused.
    pub another_check: Option<Check<INPUTS, BUFFERS>>,
    /// The check of calls that were refused.
    pub refusal_check: Option<Check<INPUTS, BUFFERS>>,
    /// Tells kinds of calls apart, which are counted then.
    pub kind_of_call: Option<KindOfCall<INPUTS>>,
    /// The numbers of moves, of an entry that makes some.
    pub moves: Option<MoveCounts>,
    pub seen: Seen,
}

impl<const INPUTS: usize, const BUFFERS: usize> Comparison<INPUTS, BUFFERS> {
    /// The comparison of an entry with these names, before the first call; the first input is the system.
    pub fn new(
        name: &'static str,
        entry: Entry<INPUTS, BUFFERS>,
        inputs: [&'static str; INPUTS],
        buffers: [&'static str; BUFFERS],
    ) -> Self {
        Comparison {
            name,
            entry,
            system: Some(Form::Letters),
            inputs: inputs.map(Pair::new),
            buffers: buffers.map(Pair::new),
            contents: None,
            proved: LentAnswer::new(),
            rust: Answer::default(),
            another_check: None,
            refusal_check: None,
            kind_of_call: None,
            moves: None,
            seen: Seen::default(),
        }
    }

    /// The comparison of an entry whose first input is a system of numbers.
    pub fn of_numbers(
        name: &'static str,
        entry: Entry<INPUTS, BUFFERS>,
        inputs: [&'static str; INPUTS],
        buffers: [&'static str; BUFFERS],
    ) -> Self {
        Comparison {
            system: Some(Form::Numbers),
            ..Comparison::new(name, entry, inputs, buffers)
        }
    }

    /// The comparison of an entry that is lent no system.
    pub fn without_system(
        name: &'static str,
        entry: Entry<INPUTS, BUFFERS>,
        inputs: [&'static str; INPUTS],
        buffers: [&'static str; BUFFERS],
    ) -> Self {
        Comparison {
            system: None,
            ..Comparison::new(name, entry, inputs, buffers)
        }
    }

    /// The comparison of an entry whose buffers are working space with these contents before a call.
    pub fn with_working_space(
        name: &'static str,
        entry: Entry<INPUTS, BUFFERS>,
        inputs: [&'static str; INPUTS],
        buffers: [&'static str; BUFFERS],
        contents: Contents,
    ) -> Self {
        Comparison {
            contents: Some(contents),
            ..Comparison::new(name, entry, inputs, buffers)
        }
    }

    /// Makes one call on both sides, with buffers of these lengths, and ends the program if they disagree.
    pub fn call(&mut self, inputs: [&[u8]; INPUTS], lengths: [usize; BUFFERS]) {
        self.call_lending(from_fn(|number| number), inputs, lengths);
    }

    /// Makes one call on both sides in which one and the same buffer is lent as every input.
    pub fn call_with_one_buffer(&mut self, input: &[u8], lengths: [usize; BUFFERS]) {
        self.call_lending([0; INPUTS], [input; INPUTS], lengths);
    }

    /// Copies the inputs into their buffers and makes one call on both sides, to which the buffers of
    /// these numbers are lent as inputs.
    fn call_lending(
        &mut self,
        lent: [usize; INPUTS],
        inputs: [&[u8]; INPUTS],
        lengths: [usize; BUFFERS],
    ) {
        for (pair, input) in self.inputs.iter_mut().zip(inputs) {
            pair.copy(input);
        }
        self.fill_buffers(lengths);
        self.proved = LentAnswer::new();
        (self.entry.proved)(
            lent.map(|number| self.inputs[number].proved.part()),
            self.buffers.each_mut().map(|pair| pair.proved.part_mut()),
            &mut self.proved.numbers,
        );
        self.rust = (self.entry.rust)(
            lent.map(|number| self.inputs[number].rust.part()),
            self.buffers.each_mut().map(|pair| pair.rust.part_mut()),
        );
        self.check();
    }

    /// Fills the buffers with the pattern, or with other contents where they are working space, and sets
    /// the lengths of their lent parts.
    fn fill_buffers(&mut self, lengths: [usize; BUFFERS]) {
        if let Some(contents) = &mut self.contents {
            contents.move_on(lengths.into_iter().max().unwrap_or(0));
        }
        for (pair, length) in self.buffers.iter_mut().zip(lengths) {
            match &self.contents {
                Some(contents) => pair.copy(contents.cut(length)),
                None => pair.fill(length),
            }
        }
    }

    /// Makes calls with every mixture of buffer lengths around those needed.
    pub fn call_with_all_rooms(&mut self, inputs: [&[u8]; INPUTS], needed: [usize; BUFFERS]) {
        let choices = rooms(0).len();
        for mixture in 0..choices.pow(BUFFERS as u32) {
            let mut rest = mixture;
            let lengths = needed.map(|needed| {
                let length = rooms(needed)[rest % choices];
                rest /= choices;
                length
            });
            self.call(inputs, lengths);
        }
    }

    /// Makes calls with every length of one buffer up to 67 bytes more than needed, and very long ones.
    pub fn call_with_every_length(
        &mut self,
        inputs: [&[u8]; INPUTS],
        needed: [usize; BUFFERS],
        buffer: usize,
    ) {
        for length in (0..=needed[buffer] + RECORD + 3).chain(LONG_LENGTHS) {
            let mut lengths = needed;
            lengths[buffer] = length;
            self.call(inputs, lengths);
        }
    }

    /// Makes these calls with systems of every length and says how many agreed, after a look that
    /// just the lengths that demand no refusal had calls that were not refused.
    pub fn walk_lengths(&mut self, mut calls_with: impl FnMut(&mut Self, &[u8])) {
        let form = self.system.expect("the first input is a system");
        let calls_before = self.seen.calls;
        let mut passed = BTreeSet::new();
        let lend = |system: &[u8]| {
            let passed_before = self.seen.not_refused();
            calls_with(self, system);
            if self.seen.not_refused() > passed_before {
                passed.insert(system.len());
            }
        };
        match form {
            Form::Letters => for_each_length(lend),
            Form::Numbers => for_each_length_of_numbers(lend),
        }
        let name = self.name;
        let expected = (0..=EVERY_LENGTH).filter(|&length| form.number_by_length(length).is_none());
        assert!(passed.into_iter().eq(expected), "{name} and lengths");
        let calls = self.seen.calls - calls_before;
        println!(
            "{name}: {calls} calls with every length of the system to {EVERY_LENGTH} bytes agree"
        );
    }

    /// The answer to the last call.
    pub fn answer(&self) -> Answer {
        self.rust
    }

    /// What the Rust version has left in one of the buffers.
    pub fn left_in(&self, buffer: usize) -> &[u8] {
        self.buffers[buffer].rust.part()
    }

    /// The form and the length of the system that was lent to the last call, if one was.
    fn form_and_length(&self) -> Option<(Form, usize)> {
        let form = self.system?;
        Some((form, self.inputs[0].rust.part().len()))
    }

    /// The first byte of each input and buffer in which the two sides differ, counted from the lent part's
    /// start; after an answer that is no refusal only what stands beside working space counts.
    fn differences(&self) -> impl Iterator<Item = (&'static str, (isize, u8, u8))> + '_ {
        let is_free = self.contents.is_some() && self.rust.verdict != REFUSED;
        let inputs = self.inputs.iter().map(|pair| (pair, pair.difference()));
        let buffers = self.buffers.iter().map(move |pair| match is_free {
            true => (pair, pair.difference_beside()),
            false => (pair, pair.difference()),
        });
        let pairs = inputs.chain(buffers);
        pairs.filter_map(|(pair, difference)| Some((pair.name, difference?)))
    }

    /// Whether working space is as it was before the last call.
    fn working_space_is_as_it_was(&self) -> bool {
        self.contents.as_ref().is_none_or(|contents| {
            let mut left = self.buffers.iter().map(|pair| pair.rust.part());
            left.all(|left| left == contents.cut(left.len()))
        })
    }

    /// Counts the last call if both sides agree, and ends the program if they do not.
    fn check(&mut self) {
        let same_bytes = self.differences().next().is_none();
        if !same_bytes || !self.proved.holds_just(self.rust) {
            self.end_with("the two sides disagree");
        }
        if self.rust.verdict == REFUSED && !self.working_space_is_as_it_was() {
            self.end_with("a refusal has changed the working space");
        }
        if let Some((form, length)) = self.form_and_length() {
            if let Err(fault) = form.check_by_length(length, self.rust) {
                self.end_with(fault);
            }
        }
        let check = match self.rust.verdict {
            REFUSED => self.refusal_check,
            _ => self.another_check,
        };
        let inputs = self.inputs.each_ref().map(|pair| pair.rust.part());
        if let Some(check) = check {
            let buffers = self.buffers.each_ref().map(|pair| pair.rust.part());
            if let Err(fault) = check(inputs, buffers, self.rust) {
                self.end_with(fault);
            }
        }
        if let Some(moves) = &mut self.moves {
            let log = self.buffers[LOG].rust.part().len();
            if let Err(fault) = moves.hold(inputs[0], log, self.proved.numbers) {
                self.end_with(fault);
            }
        }
        if let Some(kind_of_call) = self.kind_of_call {
            let kind = kind_of_call(inputs, self.rust);
            *self.seen.kinds.entry(kind).or_default() += 1;
        }
        self.seen.calls += 1;
        self.seen.reduced += self.rust.reduced;
        if self.rust.verdict == REFUSED {
            self.seen.refusals[self.rust.number as usize] += 1;
        } else {
            self.seen.verdicts[self.rust.verdict as usize] += 1;
        }
    }

    /// Says how many calls agreed, after a look that just these verdicts, the refusals of a system where
    /// there is one, and just these other refusals were among them, and gives the number of calls.
    pub fn end(&self, verdicts: &[u64], refusals: &[u64]) -> u64 {
        let name = self.name;
        let of_system = self.system.map_or(&[][..], Form::refusals);
        let mut outcomes = Vec::new();
        for ((number, verdict), count) in (0..).zip(VERDICTS).zip(self.seen.verdicts) {
            if count > 0 {
                outcomes.push(format!("{verdict} {count}"));
            }
            let expected = verdicts.contains(&number);
            assert_eq!(count > 0, expected, "{name} and the verdict {verdict}");
        }
        for (number, count) in (0..).zip(self.seen.refusals) {
            if count > 0 {
                outcomes.push(format!("refused {number}: {count}"));
            }
            let expected = of_system.contains(&number) || refusals.contains(&number);
            assert_eq!(count > 0, expected, "{name} and refusal {number}");
        }
        let calls = self.seen.calls;
        println!("{name}: {calls} calls agree ({})", outcomes.join(", "));
        calls
    }

    /// Says how many calls of each of these kinds agreed, after a look that there were at least this many.
    pub fn end_kinds(&self, kinds: &[(String, u64)]) {
        let name = self.name;
        for (kind, fewest) in kinds {
            let count = self.seen.kinds.get(kind).copied().unwrap_or(0);
            assert!(count >= *fewest, "{name} {kind}: only {count} calls");
            println!("{name} {kind}: {count} calls agree");
        }
    }

    /// The systems with the most moves that were seen.
    pub fn systems_with_most_moves(&self) -> Vec<Vec<u8>> {
        let moves = self.moves.as_ref();
        moves.map_or(Vec::new(), MoveCounts::systems_with_most_moves)
    }

    /// Says what was seen of the numbers of moves.
    pub fn end_moves(&self) {
        if let Some(moves) = &self.moves {
            moves.end(self.name);
        }
    }

    /// Prints the last call with what is wrong and ends the program with a failure. Comparisons run
    /// side by side, so the output is kept for this report until it is whole.
    pub fn end_with(&self, fault: &str) -> ! {
        let _kept = std::io::stdout().lock();
        println!("{}: {fault}", self.name);
        for pair in &self.inputs {
            let bytes = pair.rust.part();
            println!("{}, {} bytes:", pair.name, bytes.len());
            for line in bytes.chunks(RECORD) {
                println!("  {}", line.escape_ascii());
            }
        }
        for pair in &self.buffers {
            println!("{}: {} bytes", pair.name, pair.rust.part().len());
        }
        println!("verdict, number, place, moves, rank, independent, reduced");
        println!("  proved library: {:?}", self.proved.numbers);
        println!("  Rust version:   {:?}", self.rust.numbers());
        if let Some((form, length)) = self.form_and_length() {
            println!(
                "by its length of {length} bytes alone the system is {}",
                form.demanded(length)
            );
        }
        if !self.proved.alone_written() {
            println!("the proved library wrote beside its answer");
        }
        for (name, (place, one, two)) in self.differences() {
            println!("{name}: byte {place} is {one:#04x} from the proved library, {two:#04x} from the Rust version");
        }
        println!("{} calls agreed before", self.seen.calls);
        exit(1);
    }
}
