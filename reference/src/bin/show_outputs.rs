//! Prints what show hands back for each case of show-cases.txt, in order: the 64 bytes of a part
//! as they are, or the line `empty` for an empty part. The form of the cases is described there.

use std::io::{self, Write};
use subgroups_reference::records::record;
use subgroups_reference::show;

const SHOW_CASES: &str = include_str!("../../show-cases.txt");

/// The records of a field: their texts with spaces between them, or `-` for no records.
fn records(field: &str) -> Vec<u8> {
    let texts = field.split(' ').filter(|&text| text != "-");
    texts.flat_map(record).collect()
}

/// The system of a field with its length changed.
fn changed_system(field: &str, change: &str) -> Vec<u8> {
    let mut system = records(field);
    let change: isize = change.parse().expect("a change of length is a number");
    let length = system.len().checked_add_signed(change);
    system.resize(length.expect("a length is not negative"), b'.');
    system
}

/// The cases of a file, which are its lines without the notes.
fn cases(file: &str) -> impl Iterator<Item = &str> {
    file.lines().filter(|line| !line.starts_with('#'))
}

/// Prints the part that show hands back for a case.
fn print_show(output: &mut impl Write, number: usize, case: &str) -> io::Result<()> {
    let fields: Vec<&str> = case.split(" | ").collect();
    let &[stated_number, reduced, given, reduced_change, given_change, slot] = fields.as_slice()
    else {
        panic!("a case of show has six fields: {case}");
    };
    assert_eq!(stated_number, number.to_string(), "cases are numbered");
    let reduced = changed_system(reduced, reduced_change);
    let given = changed_system(given, given_change);
    let slot = u8::from_str_radix(slot, 16).expect("a slot is two hex digits");
    match show(&reduced, &given, slot) {
        [] => output.write_all(b"empty\n"),
        part => output.write_all(part),
    }
}

/// Prints the outputs for all cases.
fn main() -> io::Result<()> {
    let mut output = io::stdout().lock();
    for (index, case) in cases(SHOW_CASES).enumerate() {
        print_show(&mut output, index + 1, case)?;
    }
    Ok(())
}
