//! Times test on systems that are reduced, where it must look at everything,
//! and on systems that are not.

use crate::entries::{Entry, TEST};
use crate::timing::{line, time};
use subgroups_reference::measured::Measured;
use subgroups_reference::quick_search;
use subgroups_reference::reduction::reduction;
use subgroups_reference::words::LONGEST;

const SYSTEMS: usize = 64;

/// Test, by the quick search on the Rust side.
const QUICK_TEST: Entry<1, 0> = Entry {
    rust: quick_search::test,
    ..TEST
};

/// Times systems of several sizes.
pub fn bench() {
    for records in [4, 16] {
        let given = |independent| {
            let kind = Measured {
                generators: 3,
                records,
                shortest: 5,
                longest: LONGEST,
                independent,
            };
            kind.systems(SYSTEMS)
        };
        let reduced =
            |given: Vec<Vec<u8>>| given.iter().map(|system| reduction(system).words).collect();
        compare(records, "not reduced", given(false));
        compare(
            records,
            "half of them blank, reduced",
            reduced(given(false)),
        );
        compare(records, "none blank, reduced", reduced(given(true)));
    }
}

/// Times test on these systems.
fn compare(records: usize, name: &str, systems: Vec<Vec<u8>>) {
    let inputs: Vec<[Vec<u8>; 1]> = systems.into_iter().map(|system| [system]).collect();
    let times = time(QUICK_TEST, &inputs, []);
    line(&format!("test, {records} words, {name}"), times);
}
