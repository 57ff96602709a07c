//! Prints the measured systems and their targets as a list for GAP, in which the letter a is 1 and
//! the capital A is -1, with the rank and the memberships that the Rust version finds.

use subgroups_reference::graph::traces;
use subgroups_reference::measured::Measured;
use subgroups_reference::records::freely_reduced;
use subgroups_reference::reduction::reduction;
use subgroups_reference::words::Word;

const SYSTEMS: usize = 200;
const TARGETS: usize = 30;

/// A word as a list of numbers.
fn list(word: &Word) -> String {
    let number = |&letter: &u8| match letter {
        b'a'..=b'z' => format!("{}", letter - b'a' + 1),
        _ => format!("-{}", letter - b'A' + 1),
    };
    let numbers: Vec<String> = word.letters().iter().map(number).collect();
    format!("[{}]", numbers.join(","))
}

/// Words as a list of lists.
fn lists(words: &[Word]) -> String {
    let lists: Vec<String> = words.iter().map(list).collect();
    format!("[{}]", lists.join(","))
}

/// Prints a list of both kinds of systems.
fn main() {
    println!("kinds := [];;");
    for independent in [true, false] {
        let kind = Measured::for_gap(independent);
        println!("Add(kinds, rec(independent := {independent}, systems := [");
        for system in kind.systems(SYSTEMS) {
            let words = freely_reduced(&system);
            let rank = reduction(&system).answer.rank;
            let targets = kind.targets(&system, TARGETS);
            let members: Vec<String> = targets
                .iter()
                .map(|target| traces(words.words(), target).to_string())
                .collect();
            println!(
                "rec(words := {}, rank := {rank}, targets := {}, members := [{}]),",
                lists(words.words()),
                lists(&targets),
                members.join(",")
            );
        }
        println!("]));;");
    }
}
