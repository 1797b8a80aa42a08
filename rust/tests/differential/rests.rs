//! Files without rest conditions, SEQ2: reading them, the same bytes under other marks, and the SEQ1
//! file with each rest condition written out.

use super::assert_same;
use super::cases::{self, try_cases};
use super::optional;
use super::read::{read_both, read_into, read_to, MOST};
use mundrefol::generate::{damaged, damaged_without_rests, largest_without_rests, padded};
use mundrefol::generate::{random_file, settled_file, Random};
use mundrefol::plain::{lines, with_rests, Jobs, Unfit, FILE, SEQ1, SEQ2, STATES, TEXT};
use mundrefol::{plain, Answer};

const READ: usize = 24_000;
const MARKS: usize = 4_000;
const WRITTEN: usize = 12_000;
const SHEETS: usize = 300;

/// A number that the length of a state's text alone is the cause of.
const BY_LENGTH: &str = "by the length of a rest condition";

fn any_file(random: &mut Random) -> Vec<u8> {
    match random.below(12) {
        0 => random_file(random).without_rests().bytes(),
        1..=4 => settled_file(random).without_rests().bytes(),
        _ => damaged_without_rests(random),
    }
}

/// Whether check 2 refuses a file under the mark SEQ1.
fn sizes_are_wrong(random: &mut Random, mut file: Vec<u8>) -> bool {
    file[..4].copy_from_slice(&SEQ1);
    read_into(random, &file, MOST).answer.number == 2
}

/// Every number but 9 is met by files with and without kinds 5 and 6, and 9 never is.
#[test]
fn read_without_rests() {
    let mut answers = optional::answers((0..=13).filter(|&number| number != 9));
    answers.push((2, BY_LENGTH));
    try_cases("read without rests", READ, &answers, |random| {
        let file = any_file(random);
        let (number, part) = read_both(random, &file);
        if number == 2 && !sizes_are_wrong(random, file) {
            return (number, BY_LENGTH);
        }
        (number, part)
    });
}

/// Files at and just beyond the limits, with the number that each must answer.
#[test]
fn read_at_the_limits() {
    let largest = |bytes: usize| {
        let file = largest_without_rests(bytes);
        assert_eq!(file.bytes().len(), bytes);
        file
    };
    let (mut one_too_many, mut last_length) = (largest(FILE - 3 - TEXT), largest(FILE - 1));
    one_too_many.evolutions.push(one_too_many.evolutions[0].clone());
    last_length.states[STATES - 1].rest = "1".to_string();
    for (file, number) in [
        (largest(FILE), 0),
        (largest(FILE + 1), 1),
        (one_too_many, 2),
        (last_length, 2),
        (largest(FILE - 5 - TEXT).never(&padded("h".to_string(), TEXT)), 0),
        (largest(FILE + 1 - TEXT).starts(&padded("!h".to_string(), TEXT + 1)), 1),
        (largest(FILE - TEXT).starts(&padded("!h".to_string(), TEXT + 1)), 2),
    ] {
        let mut random = Random::new(cases::seed());
        assert_eq!(read_into(&mut random, &file.bytes(), MOST).answer.number, number);
    }
}

/// Whether a state of a file that passes check 2 has a text.
fn has_rests(file: &[u8]) -> bool {
    let states = optional::two(file, 11);
    (states..states + optional::two(file, 13)).skip(2).step_by(3).any(|at| file[at] != 0)
}

/// The same bytes under SEQ1, SEQ2 and SEQ3: 1 and 2 do not look at the form otherwise, SEQ2 wants states
/// without a text, and SEQ1 does not read an empty one.
#[test]
fn the_same_bytes_under_each_mark() {
    try_cases("marks", MARKS, &["contents", "sizes", "numbers", "rests", "no rests"], |random| {
        let mut file = match random.below(5) {
            0 => damaged(random),
            1 => settled_file(random).bytes(),
            _ => any_file(random),
        };
        if file.len() < 4 {
            return "contents";
        }
        let [one, two, three] = [SEQ1, SEQ2, *b"SEQ3"].map(|mark| {
            file[..4].copy_from_slice(&mark);
            read_into(random, &file, MOST)
        });
        assert_eq!(three.answer, Answer::refused(1, 0));
        let met = match one.answer.number {
            1 => "contents",
            2 => "sizes",
            _ if has_rests(&file) => "rests",
            4 => "numbers",
            _ => "no rests",
        };
        match met {
            "rests" => assert_eq!(two.answer, Answer::refused(2, 0)),
            "no rests" => {
                assert_eq!((one.answer, one.character), (Answer::refused(5, 0), 1));
                assert!(![1, 2, 3, 4, 9].contains(&two.answer.number));
            }
            _ => assert_eq!(one, two),
        }
        met
    });
}

/// A SEQ2 file and its SEQ1 file, over the same junk, are read to the same; only the places of the
/// conditions are moved by the bytes of the rest conditions.
fn assert_read_alike(random: &Random, file: &[u8], with: &[u8]) {
    let [of_file, of_with] = [file, with].map(|file| read_to(&mut random.clone(), file, MOST));
    let (contents, table, words, mut records) = of_file;
    let (with_contents, with_table, with_words, with_records) = of_with;
    assert_eq!(contents, with_contents);
    assert_same("table", &table, &with_table);
    assert_same("words", &words, &with_words);
    for record in &mut records[..contents.evolutions] {
        record.at += (with.len() - file.len()) as u16;
    }
    assert_same("records", &records, &with_records);
}

/// What becomes of a SEQ2 file and its SEQ1 file: the same number, or that there is none, or nothing to
/// compare as an evolution's condition does not read.
type Written = Option<Result<usize, Unfit>>;

/// The SEQ1 file is read to the same table, words and sets, or refused by the same number at the same
/// place, 5 only for kinds 5 and 6.
#[test]
fn rest_conditions_written_out() {
    let numbers = (4..=13).filter(|&number| number != 9).chain([0]).map(Ok);
    let unfit = [Unfit::Contents, Unfit::Text, Unfit::Parentheses].map(Err);
    let all: Vec<Written> = numbers.chain(unfit).map(Some).chain([None]).collect();
    try_cases("written out", WRITTEN, &all, |random| {
        let file = any_file(random);
        let with = match with_rests(&file) {
            Ok(with) => with,
            Err(unfit) => return Some(Err(unfit)),
        };
        let Answer { number, place } = read_into(random, &file, MOST).answer;
        let states = usize::from(file[optional::two(&file, 6) + 2]);
        if number == 5 && place < states + optional::two(&file, 18) / 3 {
            return None;
        }
        assert_read_alike(random, &file, &with);
        Some(Ok(number))
    });
}

/// The sheets of a SEQ2 file and its SEQ1 file, by both.
#[test]
fn sheets_with_rest_conditions_written_out() {
    let library =
        Jobs { read: mundrefol::read, plan: mundrefol::plan, list: mundrefol::multi_list };
    try_cases("sheets written out", SHEETS, &["sheet", "refusal"], |random| {
        let (file, with) = loop {
            let file = settled_file(random).without_rests().bytes();
            if let Ok(with) = with_rests(&file) {
                break (file, with);
            }
        };
        let sheet = plain::sheet(&file);
        assert!(sheet == plain::sheet(&with));
        assert!(sheet == lines(library, &file) && sheet == lines(library, &with));
        if sheet.starts_with(b"REFUSED") {
            "refusal"
        } else {
            "sheet"
        }
    });
}
