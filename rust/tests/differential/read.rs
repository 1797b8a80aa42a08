//! Reading a file.

use super::assert_same;
use super::cases::{self, try_cases};
use super::lent::{junk_bytes, junk_records, junk_words, length};
use super::optional;
use mundrefol::file::File;
use mundrefol::generate::{damaged, largest_file, padded};
use mundrefol::generate::{random_bytes, random_file, settled_file, Random};
use mundrefol::plain::{COUPLES, EVOLUTIONS, FILE, INPUTS, STATES, TEXT};
use mundrefol::{plain, Contents, Evolution};

const READ: usize = 24_000;

/// Every number is met by files with and without kinds 5 and 6, 2, 5 and 13 also on account of them.
#[test]
fn read() {
    try_cases("read", READ, &optional::answers(0..=13), |random| {
        let file = match random.below(12) {
            0 => random_bytes(random),
            1 => random_file(random).bytes(),
            2..=5 => settled_file(random).bytes(),
            _ => damaged(random),
        };
        read_both(random, &file)
    });
}

/// Files at and just beyond the limits, with the number that each must answer.
#[test]
fn read_at_the_limits() {
    let largest = |bytes: usize| {
        let file = largest_file(bytes).bytes();
        assert_eq!(file.len(), bytes);
        file
    };
    let one_state = File::new(INPUTS as u8, 16, &[(65_535, "1")], &[]);
    let many_states = |states: usize| {
        let words: Vec<u16> = (0..states as u16).collect();
        let states: Vec<(u16, &str)> = words.iter().map(|&word| (word, "1")).collect();
        File::new(1, 16, &states, &[]).bytes()
    };
    let mut one_too_many = largest_file(FILE - 100);
    one_too_many.evolutions.push(one_too_many.evolutions[0].clone());
    let files = [
        (b"SEQ1\x04".to_vec(), 1),
        (largest(FILE)[..24].to_vec(), 1),
        (b"SEQ1\x04\x01\x19\0\0\0\x02\x19\0\0\0\x03\x19\0\0\0\x04\x19\0\0\0".to_vec(), 1),
        (one_state.bytes(), 0),
        (File { initial: 1, ..one_state }.bytes(), 2),
        (many_states(STATES), 12),
        (many_states(STATES + 1), 2),
        (largest(FILE), 0),
        (largest(FILE + 1), 1),
        (one_too_many.bytes(), 2),
        (largest_file(FILE - 5 - TEXT).never(&padded("h".to_string(), TEXT)).bytes(), 0),
        (largest_file(FILE - 5 - TEXT).never(&padded("!h".to_string(), TEXT + 1)).bytes(), 1),
        (largest_file(FILE - 6 - TEXT).never(&padded("!h".to_string(), TEXT + 1)).bytes(), 2),
        (largest_file(FILE + 1 - TEXT).starts(&padded("1".to_string(), TEXT)).bytes(), 0),
        (largest_file(FILE + 1 - TEXT).starts(&padded("!h".to_string(), TEXT + 1)).bytes(), 1),
        (largest_file(FILE - TEXT).starts(&padded("!h".to_string(), TEXT + 1)).bytes(), 2),
    ];
    for (file, number) in files {
        let mut random = Random::new(cases::seed());
        assert_eq!(read_into(&mut random, &file, MOST).answer.number, number);
    }
}

/// Lengths of table, words and records for every file.
pub const MOST: (usize, usize, usize) = (COUPLES, STATES, EVOLUTIONS);

/// Elements that a file's sizes seem to ask of table, words and records.
fn asked_lengths(file: &[u8]) -> (usize, usize, usize) {
    let first_body = 5 + 5 * file.get(4).map_or(0, |&count| usize::from(count));
    match file.get(first_body..first_body + 3) {
        Some(&[inputs, _, states]) if first_body >= 25 => {
            let states = usize::from(states).min(STATES);
            let evolutions = usize::from(u16::from_le_bytes([file[18], file[19]])) / 3;
            (states << usize::from(inputs).min(INPUTS), states, evolutions.min(EVOLUTIONS))
        }
        _ => (COUPLES, STATES, EVOLUTIONS),
    }
}

/// Reads a file by both into buffers around the needed lengths: the number, and the part that kinds 5
/// and 6 have in it.
pub fn read_both(random: &mut Random, file: &[u8]) -> (usize, &'static str) {
    let (couples, states, evolutions) = asked_lengths(file);
    let lengths = (length(random, couples), length(random, states), length(random, evolutions));
    let contents = read_into(random, file, lengths);
    let mut without = |file: &[u8]| read_into(random, file, lengths);
    (contents.answer.number, optional::part(file, contents, &mut without))
}

/// What reading a file gives: the contents, and every element of every buffer.
pub type Out = (Contents, Vec<u8>, Vec<u16>, Vec<Evolution>);

/// Reads a file by both into buffers of these lengths.
pub fn read_to(random: &mut Random, file: &[u8], lengths: (usize, usize, usize)) -> Out {
    let mut table = junk_bytes(random, lengths.0);
    let mut words = junk_words(random, lengths.1);
    let mut records = junk_records(random, lengths.2);
    let (mut plain_table, mut plain_words) = (table.clone(), words.clone());
    let mut plain_records = records.clone();
    let contents = mundrefol::read(file, &mut table, &mut words, &mut records);
    let plain = plain::read(file, &mut plain_table, &mut plain_words, &mut plain_records);
    assert_eq!(contents, plain);
    assert_same("table", &table, &plain_table);
    assert_same("words", &words, &plain_words);
    assert_same("records", &records, &plain_records);
    (contents, table, words, records)
}

/// The contents alone.
pub fn read_into(random: &mut Random, file: &[u8], lengths: (usize, usize, usize)) -> Contents {
    read_to(random, file, lengths).0
}
