//! Conditions that do not read: the character, by what is wrong there, where in the text, and in
//! which record.

use super::cases::{self, try_cases};
use super::read::{read_into, MOST};
use mundrefol::examples::lamp;
use mundrefol::file::File;
use mundrefol::generate::{all_texts, settled_file, unreadable, Random};
use mundrefol::plain::{PARENTHESES, TEXT};
use mundrefol::{Answer, Contents};

const UNREAD: usize = 32_000;
const LONG: usize = 6_000;

/// How often each answer is met at least.
const OFTEN: usize = 5;

/// The record: a state, an evolution, kind 5, kind 6 without kind 5 and after it.
const RECORDS: [&str; 5] = ["state", "evolution", "kind 5", "kind 6", "kind 6 after kind 5"];

/// What is wrong: the text stops too early.
const EMPTY: &str = "empty";
const STOPS: &str = "stops before a factor";
const STOPS_OPEN: &str = "stops with a parenthesis open";

/// What is wrong: a character where a factor must stand, or behind one.
const LETTER: &str = "letter beyond the inputs";
const NO_LETTER: &str = "letter beyond h";
const NINTH: &str = "ninth parenthesis";
const NO_FACTOR: &str = "no factor";
const SECOND: &str = "second factor";
const NOT_OPEN: &str = "no parenthesis open";

/// What is wrong: a character of no condition.
const BLANK: &str = "blank";
const CONTROL: &str = "control";
const HIGH: &str = "128 or more";
const OTHER: &str = "other";

/// Where the character stands in the text.
const FIRST: &str = "first";
const MIDDLE: &str = "middle";
const LAST: &str = "last";
const BEHIND: &str = "behind";

type Fault = (&'static str, &'static str);

/// Every fault at each place where it can stand.
fn faults() -> Vec<Fault> {
    let stops = [EMPTY, STOPS, STOPS_OPEN].map(|what| (what, BEHIND));
    let first = [LETTER, NO_LETTER, NO_FACTOR, BLANK, CONTROL, HIGH, OTHER];
    let all = [&first[..], &[NINTH, SECOND, NOT_OPEN]].concat();
    let later = all.into_iter().flat_map(|what| [(what, MIDDLE), (what, LAST)]);
    stops.into_iter().chain(first.map(|what| (what, FIRST))).chain(later).collect()
}

/// What is wrong at a character of a text, and where it stands; fails if it could stand there.
fn fault(text: &[u8], character: usize, inputs: usize) -> Fault {
    let before = &text[..character - 1];
    let count = |sign: u8| before.iter().filter(|&&it| it == sign).count();
    let open = count(b'(') - count(b')');
    let factor_due = before.last().is_none_or(|sign| b"!(+.".contains(sign));
    let Some(&sign) = text.get(character - 1) else {
        assert!(factor_due || open > 0);
        let what = if factor_due { STOPS } else { STOPS_OPEN };
        return (if text.is_empty() { EMPTY } else { what }, BEHIND);
    };
    let what = match (sign, factor_due) {
        (b' ', _) => BLANK,
        (0..=31 | 127, _) => CONTROL,
        (128.., _) => HIGH,
        (b'a'..=b'h', true) if usize::from(sign - b'a') >= inputs => LETTER,
        (b'i'..=b'z', true) => NO_LETTER,
        (b'(', true) if open == PARENTHESES => NINTH,
        (b'+' | b'.' | b')', true) => NO_FACTOR,
        (b'!' | b'(' | b'0' | b'1' | b'a'..=b'z', false) => SECOND,
        (b')', false) if open == 0 => NOT_OPEN,
        (b'a'..=b'h' | b'!' | b'(' | b')' | b'+' | b'.' | b'0' | b'1', _) => panic!("it can stand"),
        _ => OTHER,
    };
    match character {
        1 => (what, FIRST),
        _ if character == text.len() => (what, LAST),
        _ => (what, MIDDLE),
    }
}

/// A sound file, of either form if the record is not a state, and a record of it of the kind.
fn file_with(random: &mut Random, kind: usize) -> (File, usize) {
    let mut file = settled_file(random);
    while file.evolutions.is_empty() {
        file = settled_file(random);
    }
    if kind > 0 && random.once_in(2) {
        file = file.without_rests();
    }
    let (states, evolutions) = (file.states.len(), file.evolutions.len());
    match kind {
        0 => (file, random.below(states)),
        1 => (file, states + random.below(evolutions)),
        2 => (file.never("0"), states + evolutions),
        3 => (File { never: None, ..file }.starts("1"), states + evolutions),
        _ => (file.never("0").starts("1"), states + evolutions + 1),
    }
}

/// Reads by both a file with the text in a record, now and then with another unread one at the end.
fn try_text(random: &mut Random, long: bool) -> (&'static str, Fault) {
    let kind = random.below(RECORDS.len());
    let (mut file, record) = file_with(random, kind);
    let inputs = usize::from(file.inputs);
    let mut text = unreadable(random, inputs);
    while long && text.len() != TEXT {
        text = unreadable(random, inputs);
    }
    if random.once_in(4) {
        file.conditions_mut().last().expect("a file has conditions").clear();
    }
    let contents = read_into(random, &file.bytes_with(record, &text), MOST);
    assert_eq!(contents.answer, Answer::refused(5, record));
    (RECORDS[kind], fault(&text, contents.character, inputs))
}

#[test]
fn unread() {
    let all = RECORDS.iter().flat_map(|&record| faults().into_iter().map(move |it| (record, it)));
    let all: Vec<(&str, Fault)> = all.collect();
    let met = try_cases("unread", UNREAD, &all, |random| try_text(random, false));
    for (answer, times) in met {
        assert!(times >= OFTEN, "{answer:?} was met {times} times");
    }
}

/// Of the most bytes.
#[test]
fn long_and_unread() {
    let all: Vec<Fault> = faults().into_iter().filter(|&(what, _)| what != EMPTY).collect();
    try_cases("long and unread", LONG, &all, |random| try_text(random, true).1);
}

/// Every text of up to five of these characters, in an evolution.
#[test]
fn every_short_text() {
    let random = &mut Random::new(cases::seed());
    for text in (0..=5).flat_map(|length| all_texts(b"!().+01ab ", length)) {
        for lamp in [lamp(), lamp().without_rests()] {
            read_into(random, &lamp.bytes_with(2, &text), (4, 2, 2));
        }
    }
}

/// Every byte in place of each of a condition's, and before each.
fn try_every_byte(file: &File, record: usize) {
    let random = &mut Random::new(cases::seed());
    let text = b"!a.(b+0.!(1))";
    for at in 0..text.len() {
        for byte in 0..=u8::MAX {
            for after in [at, at + 1] {
                let text = [&text[..at], &[byte], &text[after..]].concat();
                let Contents { answer, character, .. } =
                    read_into(random, &file.clone().bytes_with(record, &text), MOST);
                if answer.number == 5 {
                    assert_eq!(answer.place, record);
                    fault(&text, character, 2);
                }
            }
        }
    }
}

/// In each sort of record, of either form.
#[test]
fn every_byte_at_every_place() {
    let file = File { inputs: 2, ..lamp() }.never("a").starts("1");
    [0, 2, 4, 5].into_iter().for_each(|record| try_every_byte(&file, record));
    let file = file.without_rests();
    [2, 4, 5].into_iter().for_each(|record| try_every_byte(&file, record));
}
