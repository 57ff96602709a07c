//! Writes the cases of the program into the folder given as the one argument: for each case a file
//! NAME.in with the program's standard input and a file NAME.out with its expected output.

use std::path::Path;
use std::{env, fs, io, process};
use subgroups_reference::graph::traces;
use subgroups_reference::program::program;
use subgroups_reference::random::{Kind, Random};
use subgroups_reference::records::{freely_reduced, record, system, MOST_RECORDS};
use subgroups_reference::sheets::{GivenTo, Target, LENGTH_SHEETS, SHEETS};
use subgroups_reference::words::{Word, LONGEST};

/// A case's name and its input.
type Case = (String, Vec<u8>);

const NIELSEN: [&str; 4] = ["dbAc", "aaBBD", "BAcBAc", "dbbABAc"];
const RANDOM_CASES: usize = 60;

/// The case of a system given as texts, with its target.
fn texts(name: &str, given: &[&str], target: &str) -> Case {
    let mut input = system(given);
    input.extend(system(&[target]));
    (name.to_string(), input)
}

/// The worked sheets that have a target, and those on the program's lengths with any bytes.
fn worked_sheets() -> Vec<Case> {
    let mut random = Random::new(171);
    let mut cases = Vec::new();
    for sheet in &SHEETS {
        if let Target::Member(target, _) | Target::NotMember(target) = sheet.target {
            cases.push(texts(&sheet.name.to_lowercase(), sheet.given, target));
        }
    }
    for sheet in &LENGTH_SHEETS {
        if sheet.given_to == GivenTo::Program {
            let input = (0..sheet.length).map(|_| random.byte()).collect();
            cases.push((sheet.name.to_lowercase(), input));
        }
    }
    cases
}

/// Nielsen's examples, and a few systems with many moves or with blank slots.
fn examples() -> Vec<Case> {
    let full = "abcdefgabcdefgabcdefgabcdefgabcdefgabcdefgabcdefgabcdefgabcdefg";
    let powers: Vec<String> = (0..MOST_RECORDS)
        .map(|slot| "a".repeat(LONGEST - slot))
        .collect();
    let powers: Vec<&str> = powers.iter().map(String::as_str).collect();
    vec![
        texts("nielsen_blank", &NIELSEN, ""),
        texts("nielsen_first_two", &NIELSEN, "dbAcaaBBD"),
        texts("nielsen_section_3", &NIELSEN, "adbAcACaBD"),
        texts("nielsen_not_a_member", &NIELSEN, "b"),
        texts("section_1", &["abAA", "BAA"], "abbabb"),
        texts("words_that_cancel", &["aA", "b", "abBA"], "aAbbB"),
        texts("p12_member", &["aA", "b"], "bb"),
        texts("p12_not_a_member", &["aA", "b"], "a"),
        texts("one_blank", &[""], "aA"),
        texts("one_blank_not_a_member", &[""], "a"),
        texts("all_blank", &["", "", ""], ""),
        texts("sixteen_blank", &[""; MOST_RECORDS], ""),
        texts("sixteen_blank_not_a_member", &[""; MOST_RECORDS], "a"),
        texts("blank_beside_p3", &["ab", "", "b"], "a"),
        texts("63_letters", &[full], full),
        texts("powers", &powers, "A"),
        texts("same_words", &["ab"; MOST_RECORDS], "BABA"),
        texts("half_ends", &["ab", "Bc", "ad", "Ce"], "De"),
    ]
}

/// The name of a case by the length of its input.
fn named_by_length(length: usize) -> String {
    match length {
        0 => "empty".to_string(),
        1 => "1_byte".to_string(),
        _ => format!("{length}_bytes"),
    }
}

/// Inputs of chosen lengths, all of whose whole records are sound.
fn lengths() -> Vec<Case> {
    let lengths = [
        0, 1, 63, 64, 65, 1023, 1024, 1025, 1087, 1088, 1089, 1151, 1152, 1153, 1216, 1500, 1600,
        2175, 2176, 2177, 2300, 4095, 4097, 4160, 8192, 65_536, 65_537, 65_600, 66_623, 66_624,
        66_625, 200_000, 200_001,
    ];
    let one_record = system(&["ab"]);
    let input = |length| one_record.iter().copied().cycle().take(length).collect();
    lengths
        .map(|length| (named_by_length(length), input(length)))
        .to_vec()
}

/// Two sound records and a target with some bytes changed.
fn broken() -> Vec<Case> {
    let named: [(&str, &[(usize, u8)]); 18] = [
        ("no_line_feed_first", &[(63, b'.')]),
        ("no_line_feed_second", &[(127, b'a')]),
        ("digit_first", &[(1, b'7')]),
        ("space_second", &[(126, b' ')]),
        ("line_feed_early", &[(10, b'\n')]),
        ("zero_byte", &[(66, 0)]),
        ("high_byte", &[(64, 0xFF)]),
        ("before_and_after_letters", &[(65, b'['), (66, b'`')]),
        ("letter_after_stop_first", &[(9, b'a'), (30, b'b')]),
        ("letter_after_stop_second", &[(126, b'Z')]),
        ("digit_beats_letter_after_stop", &[(9, b'a'), (20, b'@')]),
        ("line_feed_beats_digit", &[(1, b'{'), (63, b'\r')]),
        ("first_record_first", &[(9, b'a'), (127, b'.')]),
        ("record_before_target", &[(100, b'7'), (128, b'7')]),
        ("target_no_line_feed", &[(191, b'.')]),
        ("target_digit", &[(128, b'7')]),
        ("target_letter_after_stop", &[(137, b'a')]),
        ("target_two_faults", &[(137, b'a'), (150, b'-')]),
    ];
    let mut cases = Vec::new();
    for (name, changes) in named {
        let mut input = system(&["ab", "b", "a"]);
        for &(place, byte) in changes {
            input[place] = byte;
        }
        cases.push((format!("broken_{name}"), input));
    }
    let lone_target = [vec![b'a'; LONGEST], vec![b'a']].concat();
    cases.push(("broken_lone_target".to_string(), lone_target));
    cases
}

/// Inputs of chosen lengths in which every byte is zero.
fn zeros() -> Vec<Case> {
    let mut cases = vec![
        ("broken_and_18_records".to_string(), vec![0; 1152]),
        ("broken_and_uneven".to_string(), vec![0; 1151]),
    ];
    for length in [63, 1023, 1025, 1087, 1088, 1089, 1500, 1600, 66_623] {
        let name = format!("broken_and_{}", named_by_length(length));
        cases.push((name, vec![0; length]));
    }
    cases
}

/// A random system, every other one of words whose halves recur in other words.
fn random_system(random: &mut Random, number: usize, generators: usize) -> Vec<u8> {
    if number.is_multiple_of(2) {
        let records = random.between(2, MOST_RECORDS);
        random.system_of_shared_halves(generators, records, [1, 2, 4, 31][number / 2 % 4])
    } else {
        random.system_to_reduce(generators)
    }
}

/// A word that is likely to be a member or likely not to be.
fn random_target(random: &mut Random, words: &[Word], generators: usize, member: bool) -> Word {
    let factors = random.between(1, 12);
    let product = random.product(words, factors);
    if member {
        product
    } else if random.below(2) == 0 {
        random.one_letter_changed(&product, generators)
    } else {
        let length = random.between(1, LONGEST);
        Word::freely_reduced(&random.letters(Kind::Reduced, generators, length))
    }
}

/// Random systems, half of them with a member and half with another word, by the folded graph.
fn random_cases() -> Vec<Case> {
    let mut random = Random::new(170);
    let mut cases = Vec::new();
    while cases.len() < RANDOM_CASES {
        let number = cases.len() + 1;
        let member = number / 2 % 2 == 0;
        let generators = random.between(2, 8);
        let mut input = random_system(&mut random, number, generators);
        let given = freely_reduced(&input);
        let target = random_target(&mut random, given.words(), generators, member);
        if traces(given.words(), &target) != member {
            continue;
        }
        let letters = match random.below(3) {
            0 => random.unreduced(target.letters(), generators),
            _ => target.letters().to_vec(),
        };
        input.extend(record(letters));
        let output = program(&input);
        let first_line = output.split(|&byte| byte == b'\n').next();
        let ending: &[u8] = if member { b"member yes" } else { b"member no" };
        assert!(first_line.is_some_and(|line| line.ends_with(ending)));
        cases.push((format!("random_{number}"), input));
    }
    cases
}

/// Writes the two files of a case.
fn write_case(folder: &Path, (name, input): &Case) -> io::Result<()> {
    fs::write(folder.join(format!("{name}.in")), input)?;
    fs::write(folder.join(format!("{name}.out")), program(input))
}

/// Writes all cases and says how many there are.
fn main() -> io::Result<()> {
    let arguments: Vec<_> = env::args_os().skip(1).collect();
    let [folder] = arguments.as_slice() else {
        eprintln!("usage: program_sheets FOLDER");
        process::exit(2);
    };
    let folder = Path::new(folder);
    fs::create_dir_all(folder)?;
    let cases = [
        worked_sheets(),
        examples(),
        lengths(),
        broken(),
        zeros(),
        random_cases(),
    ]
    .concat();
    for case in &cases {
        write_case(folder, case)?;
    }
    println!("{} cases", cases.len());
    Ok(())
}
