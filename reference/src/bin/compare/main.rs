//! Compares the proved library with the Rust version, call by call and byte by byte.
//! The inputs are the same in every run; the last line says how many calls agreed.

mod ask;
mod both_forms;
mod by_length;
mod changed_logs;
mod comparison;
mod entries;
mod from_numbers;
mod in_turn;
mod inputs;
mod lent;
mod long_logs;
mod member;
mod move_counts;
mod multiply;
mod numbers;
mod read_text;
mod reduce;
mod replay;
mod test;
mod texts;
mod tidy;
mod tidy_numbers;
mod to_numbers;
mod trace;
mod write_text;

use std::thread;

/// The comparison of each entry, which gives the number of its calls.
const COMPARISONS: [fn() -> u64; 13] = [
    tidy::compare,
    replay::compare,
    multiply::compare,
    test::compare,
    reduce::compare,
    ask::compare,
    member::compare,
    read_text::compare,
    write_text::compare,
    to_numbers::compare,
    from_numbers::compare,
    tidy_numbers::compare,
    trace::compare,
];

/// Compares the entries side by side, each in a thread of its own, and says how many calls agreed.
fn main() {
    let calls: u64 = thread::scope(|scope| {
        let running = COMPARISONS.map(|compare| scope.spawn(compare));
        let counts = running.map(|comparison| comparison.join().expect("no comparison panics"));
        counts.iter().sum()
    });
    println!("compared {calls} calls: all agree");
}
