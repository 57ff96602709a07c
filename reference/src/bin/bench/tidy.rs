//! Times tidy on systems of 16 records with 63 letters each.
//! The systems differ in how much cancels in their records.

use crate::entries::TIDY;
use crate::timing::{line, time};
use subgroups_reference::random::{Kind, Random};
use subgroups_reference::records::{record, MOST_RECORDS, RECORD};
use subgroups_reference::words::{inverse_letters, LONGEST};

const SYSTEMS: usize = 64;

/// Times all kinds of systems.
pub fn bench() {
    let mut random = Random::new(301);
    for (name, kind, generators) in [
        ("none cancel", Kind::Reduced, 5),
        ("random", Kind::Uniform, 2),
        ("half cancel", Kind::Cancelling, 3),
    ] {
        compare(name, || {
            random.system(kind, generators, MOST_RECORDS, LONGEST, LONGEST)
        });
    }
    compare("then inverses", || words_and_inverses(&mut random));
}

/// Times tidy on systems of one kind.
fn compare(name: &str, mut system: impl FnMut() -> Vec<u8>) {
    let systems: Vec<[Vec<u8>; 1]> = (0..SYSTEMS).map(|_| [system()]).collect();
    let times = time(TIDY, &systems, [RECORD * MOST_RECORDS]);
    line(&format!("tidy, 16 x 63 letters, {name}"), times);
}

/// A system of 16 records of 32 letters each, followed by all but the last of their inverses.
fn words_and_inverses(random: &mut Random) -> Vec<u8> {
    let mut system = Vec::new();
    for _ in 0..MOST_RECORDS {
        let letters = random.reduced_letters(5, 32);
        system.extend(record(
            [&letters[..], &inverse_letters(&letters)[..31]].concat(),
        ));
    }
    system
}
