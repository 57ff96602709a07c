//! Inputs shared by the comparisons of the entries: the sheets, lengths around every limit,
//! damaged records, systems with two faults at once, and random systems and targets of many kinds.

use subgroups_reference::random::{Kind, Random};
use subgroups_reference::records::{
    freely_reduced, record, system, LONGEST_SYSTEM, MOST_RECORDS, RECORD,
};
use subgroups_reference::sheets::{ASK_SHEETS, SHEETS, TIDY};
use subgroups_reference::small;
use subgroups_reference::words::{inverse_letters, Word, LONGEST};

/// The numbers of generators over which random systems are made.
pub const GENERATORS: [usize; 5] = [1, 2, 3, 5, 26];

/// The shortest and longest words of random systems, short ones and ones near 63 letters.
pub const LENGTHS: [(usize, usize); 6] = [(0, 3), (0, 8), (4, 16), (0, 63), (55, 63), (63, 63)];

/// Lengths far beyond every limit, which end in many zeros as binary numbers.
pub const LONG_LENGTHS: [usize; 3] = [1 << 8, 1 << 16, 1 << 20];

/// The length in bytes up to which systems of every length are lent.
pub const EVERY_LENGTH: usize = 2300;

/// Bytes at and around the ends of what a record may hold.
pub const TELLING_BYTES: [u8; 22] = [
    0, 9, 10, 11, 13, 32, b'-', b'.', b'/', b'0', b'@', b'A', b'M', b'Z', b'[', b'`', b'a', b'z',
    b'{', 127, 128, 255,
];

/// All bytes.
pub fn every_byte() -> Vec<u8> {
    (0..=255).collect()
}

/// This many random bytes.
pub fn any_bytes(random: &mut Random, length: usize) -> Vec<u8> {
    (0..length).map(|_| random.byte()).collect()
}

/// The systems of the worked sheets, and two around a half-end move.
pub fn sheet_systems() -> Vec<Vec<u8>> {
    let tidy_sheets = TIDY.iter().map(|(_, given, _)| system(&[given]));
    let ask_sheets = ASK_SHEETS.iter().map(|sheet| system(sheet.asked));
    let other_sheets = SHEETS.iter().map(|sheet| system(sheet.given));
    let sheets = tidy_sheets.chain(ask_sheets).chain(other_sheets);
    let half_ends = [system(&["ab", "acb"]), system(&["a", "Cab", "bc"])];
    sheets.chain(half_ends).collect()
}

/// A system of 16 records with words of many lengths.
pub fn mixed_system() -> Vec<u8> {
    let mut random = Random::new(102);
    let mut whole = Vec::new();
    for slot in 0..MOST_RECORDS {
        let length = (5 * slot + 3) % RECORD;
        whole.extend(random.system(Kind::Cancelling, 3, 1, length, length));
    }
    whole
}

/// Lends the first records of a system with words of many lengths, from none to all 16.
pub fn for_each_number_of_records(mut lend: impl FnMut(&[u8])) {
    let mixed = mixed_system();
    for records in 0..=MOST_RECORDS {
        lend(&mixed[..RECORD * records]);
    }
}

/// Lends the bytes with one after another set to one value after another.
pub fn for_each_changed_byte(
    base: &[u8],
    places: impl Iterator<Item = usize>,
    values: &[u8],
    mut lend: impl FnMut(&[u8]),
) {
    let mut changed = base.to_vec();
    for place in places {
        for &value in values {
            changed[place] = value;
            lend(&changed);
        }
        changed[place] = base[place];
    }
}

/// A system of this many records, each of which is a letter of its own as long as there are any.
pub fn letters_of_their_own(records: usize) -> Vec<u8> {
    let letters = (b'a'..=b'z').cycle().take(records);
    letters.flat_map(|letter| record([letter])).collect()
}

/// A word of this length that begins with these letters, followed by its slot's own, or the inverse.
pub fn word_with(beginning: &[u8], slot: usize, length: usize, turned: bool) -> Vec<u8> {
    let own = vec![b'a' + slot as u8; length - beginning.len()];
    let word = [beginning, &own].concat();
    if turned {
        inverse_letters(&word)
    } else {
        word
    }
}

/// Puts other letters into one slot of a system.
pub fn replace(system: &mut [u8], slot: usize, letters: &[u8]) {
    system[RECORD * slot..RECORD * (slot + 1)].copy_from_slice(&record(letters));
}

/// Systems from which those of every length are cut: two well-formed ones, of which the second is
/// reduced, then the first of them with its first record broken by rule 3, by rule 4 and by rule 5.
fn systems_to_cut() -> Vec<Vec<u8>> {
    let records = EVERY_LENGTH / RECORD + 1;
    let well_formed = record("abBc").repeat(records);
    let mut systems = vec![well_formed.clone(), letters_of_their_own(records)];
    for (place, byte) in [(RECORD - 1, b'.'), (7, b'?'), (9, b'x')] {
        let mut broken = well_formed.clone();
        broken[place] = byte;
        systems.push(broken);
    }
    systems
}

/// Lends systems of every length from 0 to 2,300 bytes and of some far longer ones: well formed as
/// far as they go, broken in the first record, and of any bytes.
pub fn for_each_length(mut lend: impl FnMut(&[u8])) {
    let mut random = Random::new(103);
    let systems = systems_to_cut();
    for length in 0..=EVERY_LENGTH {
        for system in &systems {
            lend(&system[..length]);
        }
        lend(&any_bytes(&mut random, length));
    }
    let long = record("abBc").repeat(LONG_LENGTHS[2] / RECORD + 2);
    for length in LONG_LENGTHS {
        for more in [0, 1, RECORD] {
            lend(&long[..length + more]);
        }
    }
}

/// Lends systems with one byte changed: rules 3, 4 and 5 at each place of each record, and rule 2.
pub fn for_each_malformed_system(mut lend: impl FnMut(&[u8])) {
    let whole = LONGEST_SYSTEM;
    let mixed = mixed_system();
    let full = Random::new(101).system(Kind::Uniform, 5, MOST_RECORDS, LONGEST, LONGEST);
    let blank = system(&[""; MOST_RECORDS]);
    for base in [&mixed, &full, &blank] {
        for_each_changed_byte(base, 0..whole, &TELLING_BYTES, &mut lend);
    }
    for length in (RECORD..whole).step_by(RECORD) {
        let last = length - RECORD..length;
        for_each_changed_byte(&mixed[..length], last, &TELLING_BYTES, &mut lend);
    }
    let too_long = [&mixed[..], &mixed[..RECORD]].concat();
    for length in [whole + 1, whole + RECORD] {
        for_each_changed_byte(&too_long[..length], 0..length, b"\0a", &mut lend);
    }
}

/// Lends a system with two faults in one record: the order of rules 3, 4 and 5, and the first byte.
pub fn for_each_two_faults(lend: impl FnMut(&[u8])) {
    let base = system(&["abc", "cBAaA", "b"]);
    let faults = [(b'a', b'a'), (b'a', b'?'), (b'?', b'a'), (b'?', b'?')];
    for_each_two_changed_bytes(&base, RECORD..2 * RECORD, &faults, lend);
}

/// Lends targets or products of every length from 0 to 130 bytes and far longer ones: records of
/// these letters as far as they go, blank ones, letters alone, and any bytes.
pub fn for_each_length_of_record(letters: &str, mut lend: impl FnMut(&[u8])) {
    let mut random = Random::new(104);
    let long = record(letters).repeat(LONG_LENGTHS[2] / RECORD + 1);
    for length in 0..=130 {
        lend(&long[..length]);
        lend(&record("").repeat(3)[..length]);
        lend(&vec![b'a'; length]);
        lend(&any_bytes(&mut random, length));
    }
    for length in LONG_LENGTHS {
        lend(&long[..length]);
        lend(&long[..length + RECORD]);
    }
}

/// Lends targets or products with each byte changed to every other, and with two bytes changed, to
/// faulty and to sound ones.
pub fn for_each_damaged_record(letters: &str, mut lend: impl FnMut(&[u8])) {
    for base in records_of(letters) {
        for_each_changed_byte(&base, 0..RECORD, &every_byte(), &mut lend);
    }
    let changes = [(b'a', b'a'), (b'a', b'?'), (b'?', b'z'), (b'z', b'.')];
    for_each_two_changed_bytes(&record(letters), 0..RECORD, &changes, lend);
}

/// A blank record, one of these letters, one in which they recur as often as they fit, and a full
/// one in which they recur.
pub fn records_of(letters: &str) -> [[u8; RECORD]; 4] {
    let often = letters.repeat(LONGEST / letters.len());
    let full: Vec<u8> = letters.bytes().cycle().take(LONGEST).collect();
    [record(""), record(letters), record(often), record(full)]
}

/// The record of these letters, then the same too short, too long and broken in several places.
pub fn sound_and_refused_records(letters: &str) -> Vec<Vec<u8>> {
    let sound = record(letters);
    let mut records = vec![
        sound.to_vec(),
        sound[..RECORD - 1].to_vec(),
        [&sound[..], b"\n"].concat(),
        sound.repeat(2),
    ];
    for (place, byte) in [(RECORD - 1, b'.'), (2, b'?'), (9, b'z'), (1, 0)] {
        let mut damaged = sound.to_vec();
        damaged[place] = byte;
        records.push(damaged);
    }
    records
}

/// Bytes that are lent as system and as target at once: none, and one record, a blank one and a full
/// one among them, sound, too short, too long and broken in several places.
pub fn systems_and_targets_at_once() -> Vec<Vec<u8>> {
    let mut both = vec![Vec::new()];
    for letters in ["a", "abAB", "aAb", "aA"] {
        both.extend(sound_and_refused_records(letters));
    }
    both.extend(sound_and_refused_records(""));
    both.extend(records_of("abC").map(Vec::from));
    both
}

/// Lends bytes with two of them changed, at any two of the places and to each pair of values.
pub fn for_each_two_changed_bytes(
    base: &[u8],
    places: std::ops::Range<usize>,
    values: &[(u8, u8)],
    mut lend: impl FnMut(&[u8]),
) {
    let mut changed = base.to_vec();
    for one in places.clone() {
        for two in one + 1..places.end {
            for &(first, second) in values {
                changed[one] = first;
                changed[two] = second;
                lend(&changed);
            }
            changed[two] = base[two];
        }
        changed[one] = base[one];
    }
}

/// Lends all systems of one to four short words over one, two and three generators.
pub fn for_each_small_system(mut lend: impl FnMut(&[u8])) {
    for (generators, longest, records) in [
        (1, 8, 1),
        (1, 12, 2),
        (1, 6, 3),
        (2, 4, 2),
        (2, 2, 3),
        (2, 1, 4),
        (3, 2, 2),
        (3, 1, 4),
    ] {
        small::for_each_system(generators, longest, records, &mut lend);
    }
}

/// Lends all systems of a few short words, each with all short targets.
pub fn for_each_small_system_and_targets(mut lend: impl FnMut(&[u8], &[Vec<u8>])) {
    for (generators, longest, records, longest_target) in
        [(1, 5, 2, 6), (2, 2, 2, 4), (2, 1, 3, 3), (3, 2, 1, 3)]
    {
        let targets = small::words(generators, longest_target);
        small::for_each_system(generators, longest, records, |system| {
            lend(system, &targets)
        });
    }
}

/// A well-formed system of a one-letter word, a word of 63 letters and two short ones, then the
/// same broken by each of the rules 1 to 5 and by two of them at once.
pub fn sound_and_refused_systems() -> Vec<Vec<u8>> {
    broken_systems(system(&["b", &"a".repeat(LONGEST), "a", "cB"]))
}

/// A well-formed system of four words, short ones and a second one of 63 letters, then the same
/// broken by each of the rules 1 to 5 and by two of them at once.
pub fn broken_systems(sound: Vec<u8>) -> Vec<Vec<u8>> {
    let faults = [
        (RECORD - 1, b'.'),
        (7, b'?'),
        (9, b'x'),
        (2 * RECORD - 1, b' '),
        (2 * RECORD - 3, b'\n'),
        (3 * RECORD - 1, b'a'),
        (2 * RECORD + 5, 0),
        (2 * RECORD + 5, b'b'),
    ];
    let mut systems = vec![sound.clone()];
    for (index, &(place, byte)) in faults.iter().enumerate() {
        let mut one_fault = sound.clone();
        one_fault[place] = byte;
        for &(other_place, other_byte) in &faults[index + 1..] {
            let mut two_faults = one_fault.clone();
            two_faults[other_place] = other_byte;
            systems.push(two_faults);
        }
        systems.push(one_fault);
    }
    for base in systems.clone() {
        systems.push(base[..base.len() - 1].to_vec());
        let too_long = base.repeat(5);
        for more in [1, RECORD, RECORD + 1] {
            systems.push(too_long[..LONGEST_SYSTEM + more].to_vec());
        }
    }
    systems
}

/// Lengths of a buffer around the one that is just long enough.
pub fn rooms(exact: usize) -> [usize; 5] {
    [0, exact.saturating_sub(1), exact, exact + 1, exact + 100]
}

/// A random length of a buffer, often just long enough and sometimes too short.
pub fn any_room(random: &mut Random, exact: usize) -> usize {
    match random.below(6) {
        0 => random.below(exact + 1),
        1 => exact + random.below(80),
        _ => exact + random.below(3),
    }
}

/// A random system over this many generators, of any kind and size.
pub fn random_system(random: &mut Random, generators: usize) -> Vec<u8> {
    let (shortest, longest) = LENGTHS[random.below(LENGTHS.len())];
    let records = random.below(MOST_RECORDS + 1);
    let kind = Kind::ALL[random.below(Kind::ALL.len())];
    random.system(kind, generators, records, shortest, longest)
}

/// A target for a system: a product of the given or the reduced words, one like it, or any word.
pub fn any_target(
    random: &mut Random,
    given: &[Word],
    reduced: &[Word],
    generators: usize,
) -> Vec<u8> {
    let most_factors = [3, 10, 40, 200][random.below(4)];
    let factors = random.below(most_factors);
    let words = if random.below(2) == 0 { given } else { reduced };
    let product = random.product(words, factors);
    let length = random.below(LONGEST + 1);
    let word = match random.below(10) {
        0 => return random.cancelling_letters(generators, length),
        1 => Word::freely_reduced(&random.reduced_letters(generators, length)),
        2 | 3 => random.one_letter_changed(&product, generators),
        4 => Word::freely_reduced(&product.letters()[..product.len().min(length)]),
        5 => product_of_halves(random, reduced, factors),
        _ => product,
    };
    match random.below(4) {
        0 => random.unreduced(word.letters(), generators),
        _ => word.letters().to_vec(),
    }
}

/// A product of words in which a factor's end may be cut off at its half.
fn product_of_halves(random: &mut Random, words: &[Word], factors: usize) -> Word {
    let mut product = Word::EMPTY;
    for _ in 0..factors {
        if words.is_empty() {
            break;
        }
        let factor = random.factor(words);
        let kept = match random.below(6) {
            0 => factor.len() / 2,
            _ => factor.len(),
        };
        let factor = Word::freely_reduced(&factor.letters()[..kept]);
        product = product.times(&factor).unwrap_or(product);
    }
    product
}

/// A reduced system with a letter changed, or a word replaced by a product, an inverse or a part;
/// nothing where it has no word.
pub fn changed_systems(random: &mut Random, words: &[u8], generators: usize) -> Vec<Vec<u8>> {
    let reduced = freely_reduced(words);
    if words.is_empty() {
        return Vec::new();
    }
    let slot = random.below(reduced.count());
    let word = reduced.words()[slot];
    let other = reduced.words()[random.below(reduced.count())];
    let half = &word.letters()[..word.len() / 2];
    let replacements = [
        random.one_letter_changed(&word, generators),
        random.product(reduced.words(), 2),
        word.inverse(),
        other,
        other.inverse(),
        Word::freely_reduced(&[half, &other.letters()[other.len() / 2..]].concat()),
        Word::freely_reduced(half),
    ];
    let changed = |replacement: Word| {
        let mut changed = words.to_vec();
        let letters = random.unreduced(replacement.letters(), generators);
        changed[RECORD * slot..RECORD * (slot + 1)].copy_from_slice(&record(letters));
        changed
    };
    replacements.map(changed).to_vec()
}

/// Damages bytes in a few random places: any byte, one bit, or a telling byte.
pub fn damage(random: &mut Random, bytes: &mut [u8]) {
    if bytes.is_empty() {
        return;
    }
    for _ in 0..random.between(1, 4) {
        let place = random.below(bytes.len());
        match random.below(3) {
            0 => bytes[place] = random.byte(),
            1 => bytes[place] ^= 1 << random.below(8),
            _ => bytes[place] = TELLING_BYTES[random.below(TELLING_BYTES.len())],
        }
    }
}
