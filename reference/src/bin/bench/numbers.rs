//! Times the calls on numbers on systems of 12 words of 5 to 30 letters, about half of which cancel.
//! The numbers are those that to_numbers makes of the letters.

use crate::entries::{FROM_NUMBERS, TIDY_NUMBERS, TO_NUMBERS};
use crate::timing::{line, time};
use subgroups_reference::numbers::NUMBERS_RECORD;
use subgroups_reference::random::{Kind, Random};
use subgroups_reference::records::RECORD;
use subgroups_reference::to_numbers;

const SYSTEMS: usize = 64;
const RECORDS: usize = 12;

/// Times the way there, the way back, and tidying.
pub fn bench() {
    let mut random = Random::new(351);
    let system = || [random.system(Kind::Cancelling, 3, RECORDS, 5, 30)];
    let systems: Vec<[Vec<u8>; 1]> = std::iter::repeat_with(system).take(SYSTEMS).collect();
    let numbers: Vec<[Vec<u8>; 1]> = systems.iter().map(in_numbers).collect();
    let times = time(TO_NUMBERS, &systems, [NUMBERS_RECORD * RECORDS]);
    line("to numbers, 12 words of 5-30 letters", times);
    let times = time(FROM_NUMBERS, &numbers, [RECORD * RECORDS]);
    line("from numbers, 12 words of 5-30 letters", times);
    let times = time(TIDY_NUMBERS, &numbers, [NUMBERS_RECORD * RECORDS]);
    line("tidy numbers, 12 words of 5-30 letters, half cancel", times);
}

/// The system of numbers for a system.
fn in_numbers([system]: &[Vec<u8>; 1]) -> [Vec<u8>; 1] {
    let mut numbers = vec![0; NUMBERS_RECORD * RECORDS];
    to_numbers(system, &mut numbers);
    [numbers]
}
