//! What kinds 5 and 6 do to the reading of a file, and every way of listing kinds.

use super::cases;
use super::read::{read_into, MOST};
use mundrefol::examples::lamp;
use mundrefol::file::{with_contents, File};
use mundrefol::generate::{all_lists, padded, Random};
use mundrefol::plain::{SEQ1, SEQ2, TEXT};
use mundrefol::{Answer, Contents};

/// Which of kinds 5 and 6 a file has, where it is read as without 5 and with 6 `1`.
const THERE: [&str; 4] = ["neither kind", "kind 5", "kind 6", "both kinds"];

/// What an answer is on account of.
const BY_5: &str = "by kind 5";
const BY_6: &str = "by kind 6";
const BY_6_AFTER_5: &str = "by kind 6 after kind 5";
const BY_BOTH: &str = "by kinds 5 and 6 together";
const BY_POWER_UP: &str = "for want of kind 6";

/// Each of the numbers with each of the kinds, and those that the kinds are the cause of.
pub fn answers(numbers: impl Iterator<Item = usize>) -> Vec<(usize, &'static str)> {
    let there = numbers.flat_map(|number| THERE.map(|kinds| (number, kinds)));
    let long = [BY_5, BY_6].map(|cause| (2, cause));
    let unread = [BY_5, BY_6, BY_6_AFTER_5].map(|cause| (5, cause));
    let no_start = [BY_5, BY_6, BY_BOTH, BY_POWER_UP].map(|cause| (13, cause));
    there.chain(long).chain(unread).chain(no_start).collect()
}

/// The number in two bytes of a file.
pub fn two(file: &[u8], at: usize) -> usize {
    usize::from(u16::from_le_bytes([file[at], file[at + 1]]))
}

/// Whether an entry after the first four is of the kind.
fn lists(file: &[u8], kind: u8) -> bool {
    let count = file.get(4).map_or(0, |&count| usize::from(count));
    (4..count).any(|entry| file.get(5 + 5 * entry) == Some(&kind))
}

/// The kinds and bodies of a file with right contents.
fn bodies_of(file: &[u8]) -> Vec<(u8, Vec<u8>)> {
    let body = |at: usize| {
        let start = two(file, at + 1);
        (file[at], file[start..start + two(file, at + 3)].to_vec())
    };
    (0..usize::from(file[4])).map(|entry| body(5 + 5 * entry)).collect()
}

/// The file of these bodies without kind 5, and with kind 6 `1`, or one of these kinds as it is.
fn altered(mark: [u8; 4], bodies: &[(u8, Vec<u8>)], kept: Option<u8>) -> Vec<u8> {
    let stays = |kind: u8| kind < 5 || kept == Some(kind);
    let mut bodies: Vec<_> = bodies.iter().filter(|body| stays(body.0)).cloned().collect();
    if kept != Some(6) {
        bodies.push((6, b"1".to_vec()));
    }
    with_contents(mark, &bodies)
}

/// The part that kinds 5 and 6 have in the answer of reading a file. Only 2, 5 and 13 may be other than
/// for the file without 5 and with 6 `1`: too long, not read as its own record, no start left.
pub fn part(
    file: &[u8],
    contents: Contents,
    read: &mut impl FnMut(&[u8]) -> Contents,
) -> &'static str {
    let answer = contents.answer;
    let [five, six] = [5, 6].map(|kind| lists(file, kind));
    let there = THERE[usize::from(five) + 2 * usize::from(six)];
    if answer.number == 1 {
        return there;
    }
    let bodies = bodies_of(file);
    let mark = *file.first_chunk().expect("a mark");
    let mut with = |kept| read(&altered(mark, &bodies, kept));
    let without = with(None);
    if answer == without.answer {
        assert_eq!(contents.character, without.character);
        return there;
    }
    let number = without.answer.number;
    match answer.number {
        2 => by_length(&bodies),
        5 if ![1, 2, 3, 4, 5].contains(&number) => by_record(&bodies, answer.place, five),
        13 if number == 0 => match [5, 6].map(|kind| with(Some(kind)).answer.number) {
            [13, _] => BY_5,
            [_, 13] if six => BY_6,
            [_, 13] => BY_POWER_UP,
            _ => BY_BOTH,
        },
        _ => panic!("{answer:?}, without them {without:?}"),
    }
}

/// Which condition is too long.
fn by_length(bodies: &[(u8, Vec<u8>)]) -> &'static str {
    let long = bodies[4..].iter().find(|(_, body)| body.len() > TEXT);
    if long.expect("a long condition").0 == 5 {
        BY_5
    } else {
        BY_6
    }
}

/// Which condition the record is, after the last evolution.
fn by_record(bodies: &[(u8, Vec<u8>)], record: usize, five: bool) -> &'static str {
    let after_last = usize::from(bodies[0].1[2]) + bodies[2].1.len() / 3;
    match (record - after_last, five) {
        (0, true) => BY_5,
        (0, false) => BY_6,
        (1, true) => BY_6_AFTER_5,
        _ => panic!("there is no record {record}"),
    }
}

fn read_from(file: &[u8], lengths: (usize, usize, usize)) -> Contents {
    read_into(&mut Random::new(cases::seed()), file, lengths)
}

/// The number for a lamp.
fn number_of(file: &[u8]) -> usize {
    read_from(file, (4, 2, 2)).answer.number
}

/// The lamp with neither kind, each of them, and both; all of them read.
fn lamps() -> [File; 4] {
    [lamp(), lamp().never("a"), lamp().starts("1"), lamp().never("a").starts("1")]
}

/// The same with rest conditions and without.
fn lamps_of_both_forms() -> impl Iterator<Item = File> {
    lamps().into_iter().chain(lamps().map(File::without_rests))
}

/// Of all lists of up to six kinds, and of all rising ones, four are contents.
fn try_every_list_of_kinds(lamp: File) {
    let mark = lamp.mark;
    let bodies = lamp.never("a").starts("1").bodies();
    let number = |kinds: &[u8]| {
        let body = |kind: u8| bodies.iter().find(|body| body.0 == kind);
        let listed = |&kind: &u8| (kind, body(kind).map_or(Vec::new(), |body| body.1.clone()));
        number_of(&with_contents(mark, &kinds.iter().map(listed).collect::<Vec<_>>()))
    };
    let right = lamps().map(|file| file.bodies().iter().map(|body| body.0).collect::<Vec<_>>());
    let rising = (0..1usize << 9)
        .map(|members| (0..9).filter(|kind| members >> kind & 1 == 1).collect::<Vec<u8>>());
    for kinds in (0..=6).flat_map(|length| all_lists(8, length)).chain(rising) {
        assert_eq!(number(&kinds), usize::from(!right.contains(&kinds)), "{kinds:?}");
    }
}

#[test]
fn every_list_of_kinds() {
    try_every_list_of_kinds(lamp());
}

#[test]
fn every_list_of_kinds_without_rests() {
    try_every_list_of_kinds(lamp().without_rests());
}

/// Every other byte in the contents, at every place: refused by 1, unless it makes kind 5 a kind 6, or
/// SEQ1 SEQ2, or the other way round.
#[test]
fn every_byte_of_the_contents() {
    for mut file in lamps_of_both_forms().map(|file| file.bytes()) {
        assert_eq!(number_of(&file), 0);
        for at in 0..two(&file, 6) {
            let right = file[at];
            for byte in (0..=u8::MAX).filter(|&byte| byte != right) {
                file[at] = byte;
                let other_kind = file[4] == 5 && at == 25 && [5, 6].contains(&byte);
                let other_mark = at == 3 && [SEQ1[3], SEQ2[3]].contains(&byte);
                assert_eq!(number_of(&file) != 1, other_kind || other_mark, "{byte} at {at}");
            }
            file[at] = right;
        }
    }
}

/// A count with the offsets of another: bodies from 5 + 5 × count on, and from nowhere else.
#[test]
fn every_count_and_first_offset() {
    for file in lamps_of_both_forms().map(|file| file.bytes()) {
        let count = usize::from(file[4]);
        for first in (0..count).chain(count + 1..60) {
            let mut moved = file.clone();
            for entry in 0..count {
                let offset = (two(&file, 6 + 5 * entry) + 5 * first) as u16 - 5 * count as u16;
                moved[6 + 5 * entry..8 + 5 * entry].copy_from_slice(&offset.to_le_bytes());
            }
            assert_eq!(number_of(&moved), 1, "offsets of {first} entries");
            moved[4] = first as u8;
            assert_eq!(number_of(&moved), 1, "{first} entries");
        }
    }
}

/// The lamp with a text at one place.
type With = fn(&str) -> File;

/// The lamp with each text as one of its conditions.
#[track_caller]
fn assert_answers(with: With, texts: &[&str], answer: Answer, character: usize) {
    for text in texts {
        let read = read_from(&with(text).bytes(), MOST);
        assert_eq!((read.answer, read.character), (answer, character), "{text}");
    }
}

/// The conditions of kinds 5 and 6 by what becomes of the lamp with each: it starts at setting 0 alone.
#[test]
fn conditions_of_kinds_5_and_6() {
    let not_at_0 = ["0", "a", "a.!a", "!!a", "((((((((a))))))))", &padded("a".into(), TEXT)];
    let at_0 = ["1", "!a", "a+!a", &padded("1".into(), TEXT)];
    let unread = ["", "b", &padded("A".into(), TEXT)];
    let long = [&padded("!a".into(), TEXT + 1)[..], &"a".repeat(300), &"(".repeat(60_000)];
    let kinds: [(With, usize, bool); 3] = [
        (|text| lamp().never(text), 4, false),
        (|text| lamp().starts(text), 4, true),
        (|text| lamp().never("a").starts(text), 5, true),
    ];
    for (with, record, of_starts) in kinds {
        let (left, none) =
            if of_starts { (&at_0[..], &not_at_0[..]) } else { (&not_at_0[..], &at_0[..]) };
        assert_answers(with, left, Answer::done(0), 0);
        assert_answers(with, none, Answer::refused(13, 0), 0);
        assert_answers(with, &unread, Answer::refused(5, record), 1);
        assert_answers(with, &["()", "a "], Answer::refused(5, record), 2);
        assert_answers(with, &["a+"], Answer::refused(5, record), 3);
        assert_answers(with, &["(((((((((a)))))))))"], Answer::refused(5, record), 9);
        assert_answers(with, &long, Answer::refused(2, 0), 0);
    }
}
