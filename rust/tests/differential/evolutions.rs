//! One evolution asked out of the records that reading handed on, and out of altered ones.

use super::cases::try_cases;
use super::lent::{junk_bytes, junk_records};
use mundrefol::generate::{largest_file, nested, random_condition, settled_file, Random};
use mundrefol::plain::{COUPLES, EVOLUTIONS, FILE, INPUTS, STATES};
use mundrefol::{plain, Evolution, Frame};

const READ: usize = 1_200;
const ALTERED: usize = 6_000;
const TEXTS: usize = 12_000;

/// Numbers of inputs that a caller may tell: none, those within the limits, and more.
const TOLD: [usize; 20] =
    [0, 1, 2, 3, 4, 5, 6, 7, 8, 9, 10, 16, 26, 27, 64, 158, 159, 256, 1 << 32, usize::MAX];

/// Asks both, which must agree.
fn holds(
    records: &[Evolution],
    evolution: usize,
    file: &[u8],
    inputs: usize,
    setting: usize,
) -> bool {
    let library = mundrefol::evolution_holds(records, evolution, file, inputs, setting);
    let plain = plain::evolution_holds(records, evolution, file, inputs, setting);
    assert_eq!(library, plain, "evolution {evolution}, {inputs} inputs, setting {setting}");
    library
}

/// A file that reads, and what reading it handed on.
struct Read {
    file: Vec<u8>,
    frame: Frame,
    table: Vec<u8>,
    records: Vec<Evolution>,
}

impl Read {
    /// Reads by both, which must agree; none if the file is refused.
    fn of(file: Vec<u8>) -> Option<Read> {
        let by = |job: plain::Read| {
            let mut table = vec![0; COUPLES];
            let mut records = vec![Evolution::default(); EVOLUTIONS];
            let contents = job(&file, &mut table, &mut [0; STATES], &mut records);
            records.truncate(contents.evolutions);
            (contents, table, records)
        };
        let (contents, table, records) = by(mundrefol::read);
        assert!(by(plain::read) == (contents, table.clone(), records.clone()));
        let read = contents.answer.number == 0;
        read.then_some(Read { file, frame: contents.frame, table, records })
    }

    fn any(random: &mut Random) -> Read {
        loop {
            let file = settled_file(random);
            let file = if random.once_in(2) { file.without_rests() } else { file };
            if let Some(read) = Read::of(file.bytes()) {
                return read;
            }
        }
    }

    /// Asks every evolution at every setting: it holds where the table has its move.
    fn ask_all(&self) -> bool {
        let Frame { inputs, .. } = self.frame;
        let mut any = false;
        for (index, it) in self.records.iter().enumerate() {
            for setting in 0..1 << inputs {
                let moves = self.table[usize::from(it.source) << inputs | setting] == it.target;
                assert_eq!(holds(&self.records, index, &self.file, inputs, setting), moves);
                any |= moves;
            }
        }
        any
    }
}

#[test]
fn records_that_reading_handed_on() {
    try_cases("evolution holds", READ, &[0, 1], |random| usize::from(Read::any(random).ask_all()));
    let largest = Read::of(largest_file(FILE).bytes()).expect("the largest file reads");
    assert_eq!(largest.records.len(), EVOLUTIONS);
    assert!(largest.ask_all());
}

/// At the end of the list, far beyond it, and where a place counted in bytes would come round again.
#[test]
fn beyond_the_list() {
    try_cases("beyond the list", 200, &[0], |random| {
        let Read { file, frame, mut records, .. } = Read::any(random);
        let round = usize::MAX / size_of::<Evolution>() + 1;
        for _ in 0..2 {
            let length = records.len();
            for evolution in [length, length + 1, EVOLUTIONS, 65_536, 1 << 32, 1 << 63, round] {
                for setting in 0..1 << frame.inputs {
                    let ask = |beyond| holds(&records, beyond, &file, frame.inputs, setting);
                    assert!(!ask(evolution) && !ask(usize::MAX - evolution));
                }
            }
            records.clear();
        }
        0
    });
}

/// Files cut short or longer, records with another place or length, any inputs, any setting.
#[test]
fn altered_records_and_files() {
    try_cases("altered evolutions", ALTERED, &[0, 1], |random| {
        let Read { mut file, frame, mut records, .. } = Read::any(random);
        if random.once_in(3) {
            file.truncate(random.below(file.len() + 1));
        } else if random.once_in(2) {
            file.extend_from_slice(b"+a.b+1");
        }
        for it in &mut records {
            match random.below(6) {
                0 => it.at = it.at.wrapping_add(random.below(5) as u16).wrapping_sub(2),
                1 => it.length = it.length.wrapping_add(random.below(5) as u8).wrapping_sub(2),
                2 => *it = junk_records(random, 1)[0],
                _ => {}
            }
        }
        let mut any = false;
        for evolution in 0..records.len().min(40) {
            for setting in [random.below(1 << frame.inputs), random.bits() as usize] {
                let told = *random.pick(&TOLD);
                any |= holds(&records, evolution, &file, frame.inputs, setting);
                any |= holds(&records, evolution, &file, told, setting);
            }
        }
        usize::from(any)
    });
}

/// Texts over more letters than there are, between other bytes, at any number of inputs.
#[test]
fn texts_at_any_number_of_inputs() {
    try_cases("evolution texts", TEXTS, &[0, 1], |random| {
        let letters = *random.pick(&[1, 3, 8, 9, 26]);
        let mut text = random_condition(random, letters);
        if random.once_in(6) {
            text = nested(&text, random.between(1, 10));
        }
        text.truncate(usize::from(u8::MAX));
        let at = random.below(30);
        let mut file = junk_bytes(random, at);
        file.extend(text.bytes());
        let after = random.below(3);
        file.extend(junk_bytes(random, after));
        let record = Evolution { at: at as u16, length: text.len() as u8, ..Evolution::default() };
        let mut any = false;
        for told in TOLD {
            any |= holds(&[record], 0, &file, told, random.bits() as usize);
        }
        usize::from(any)
    });
}

/// Every byte as a text, and after `!`, so that one of the two holds exactly if the byte reads: `0`,
/// `1`, and the letters a to h below the inputs, however many these are.
#[test]
fn every_character_at_any_number_of_inputs() {
    let records =
        [(0, 2), (1, 1)].map(|(at, length)| Evolution { source: 0, target: 1, at, length });
    for byte in 0..=u8::MAX {
        let file = [b'!', byte];
        let letter = (b'a'..=b'h').position(|letter| letter == byte);
        for inputs in TOLD.into_iter().chain(11..=40) {
            for setting in [0, 1, 0x5a, 0xff, 0x100, usize::MAX, usize::MAX - 0xff] {
                let says = match (byte, letter) {
                    (b'0', _) => Some(false),
                    (b'1', _) => Some(true),
                    (_, Some(input)) if input < inputs => Some(setting >> input & 1 == 1),
                    _ => None,
                };
                assert_eq!(holds(&records, 1, &file, inputs, setting), says == Some(true));
                assert_eq!(holds(&records, 0, &file, inputs, setting), says == Some(false));
            }
        }
    }
}

/// Texts that end with the file, end beyond it, begin beyond it, or are empty.
#[test]
fn at_the_end_of_the_file() {
    let (most, length) = (usize::from(u16::MAX), usize::from(u8::MAX));
    let long = "1+".repeat(length / 2) + "1";
    let file = "x".repeat(most) + &long;
    let asked = |file: &str, at: usize, length: usize| {
        let record = Evolution { source: 0, target: 1, at: at as u16, length: length as u8 };
        holds(&[record], 0, file.as_bytes(), INPUTS, 0)
    };
    assert!(asked(&file, most, length));
    assert!(!asked(&file[..file.len() - 1], most, length));
    assert!(!asked(&file[most..], most, length));
    assert!(asked(&file[most..], 0, length));
    for (file, at, length, right) in [
        ("1", 0, 1, true),
        ("1", 0, 2, false),
        ("1", 1, 1, false),
        ("1", 0, 0, false),
        ("1", 1, 0, false),
        ("1", 2, 0, false),
        ("01", 1, 1, true),
        ("", 0, 0, false),
        ("", 0, 1, false),
    ] {
        assert_eq!(asked(file, at, length), right, "{file:?} from {at}, {length} bytes");
    }
}
