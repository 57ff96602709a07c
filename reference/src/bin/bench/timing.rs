//! Timing of the two sides of an entry, or of more sides, by turns in one run.
//! A line of the table gives the time of one call on either side and their ratio.

use crate::entries::{Entry, Numbers, ProvedCall, RustCall};
use std::hint::black_box;
use std::time::{Duration, Instant};

/// How often each side is timed; the shortest of the times counts, as the least disturbed.
const ROUNDS: usize = 61;

/// About how long the timings of one round take together.
const ROUND: Duration = Duration::from_millis(9);

/// The time of one call on either side, in microseconds.
#[derive(Clone, Copy)]
pub struct Times {
    pub proved: f64,
    pub rust: f64,
}

impl Times {
    /// The time of this many calls.
    pub fn of_calls(self, calls: usize) -> Times {
        Times {
            proved: self.proved * calls as f64,
            rust: self.rust * calls as f64,
        }
    }
}

/// The time that the calls take when they are made for every input, repeatedly.
fn time_of<T>(inputs: &[T], repetitions: usize, call: &mut dyn FnMut(&T)) -> Duration {
    let start = Instant::now();
    for _ in 0..repetitions {
        for input in inputs {
            call(black_box(input));
        }
    }
    start.elapsed()
}

/// The calls of an entry for each of the inputs by the proved library, with buffers of these lengths.
pub fn proved_side<const INPUTS: usize, const BUFFERS: usize>(
    call: ProvedCall<INPUTS, BUFFERS>,
    lengths: [usize; BUFFERS],
) -> impl FnMut(&[Vec<u8>; INPUTS]) {
    let mut buffers = lengths.map(|length| vec![0; length]);
    let mut answer: Numbers = [0; 7];
    move |input| {
        let buffers = buffers.each_mut().map(|bytes| black_box(&mut bytes[..]));
        call(
            input.each_ref().map(|bytes| &bytes[..]),
            buffers,
            &mut answer,
        );
        black_box(&answer);
    }
}

/// The calls of an entry for each of the inputs by the Rust version, with buffers of these lengths.
pub fn rust_side<const INPUTS: usize, const BUFFERS: usize>(
    call: RustCall<INPUTS, BUFFERS>,
    lengths: [usize; BUFFERS],
) -> impl FnMut(&[Vec<u8>; INPUTS]) {
    let mut buffers = lengths.map(|length| vec![0; length]);
    move |input| {
        let buffers = buffers.each_mut().map(|bytes| black_box(&mut bytes[..]));
        let answer = call(input.each_ref().map(|bytes| &bytes[..]), buffers);
        black_box(&answer);
    }
}

/// Times the calls of an entry for each of the inputs, with buffers of these lengths.
pub fn time<const INPUTS: usize, const BUFFERS: usize>(
    entry: Entry<INPUTS, BUFFERS>,
    inputs: &[[Vec<u8>; INPUTS]],
    lengths: [usize; BUFFERS],
) -> Times {
    let mut proved_side = proved_side(entry.proved, lengths);
    let mut rust_side = rust_side(entry.rust, lengths);
    let [proved, rust] = shortest_times(inputs, [&mut proved_side, &mut rust_side]);
    Times { proved, rust }
}

/// The shortest of the times of one call on each side in microseconds, by turns over many rounds.
pub fn shortest_times<T, const SIDES: usize>(
    inputs: &[T],
    mut sides: [&mut dyn FnMut(&T); SIDES],
) -> [f64; SIDES] {
    let once = sides.each_mut().map(|side| time_of(inputs, 1, side));
    let once = once.iter().sum::<Duration>();
    let repetitions = (ROUND.as_nanos() / once.as_nanos().max(1)).max(1) as usize;
    let calls = (repetitions * inputs.len()) as f64;
    let mut times = [f64::INFINITY; SIDES];
    for round in 0..ROUNDS {
        for turn in 0..SIDES {
            let side = (round + turn) % SIDES;
            let time = time_of(inputs, repetitions, sides[side]);
            times[side] = times[side].min(time.as_secs_f64() * 1e6 / calls);
        }
    }
    times
}

/// Prints the heading of the table.
pub fn heading() {
    println!(
        "{:<63} {:>11} {:>11} {:>6}",
        "times per call in microseconds", "proved", "Rust", "ratio"
    );
}

/// Prints a line of the table.
pub fn line(name: &str, times: Times) {
    let Times { proved, rust } = times;
    let ratio = proved / rust;
    println!("{name:<63} {proved:>11.3} {rust:>11.3} {ratio:>6.2}");
}
