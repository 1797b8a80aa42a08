//! Which character of a condition does not read: one text after the other as the condition of a
//! state, of an evolution and of kinds 5 and 6, read by the library.

use mundrefol::examples::{self, lamp};
use mundrefol::file::File;
use mundrefol::plain::{COUPLES, EVOLUTIONS, STATES, TEXT};
use mundrefol::{Answer, Contents, Evolution};
use std::collections::BTreeSet;

fn read(file: &[u8], couples: usize) -> Contents {
    let mut records = [Evolution::default(); EVOLUTIONS];
    mundrefol::read(file, &mut vec![0; couples], &mut [0; STATES], &mut records)
}

/// The lamp with a number of inputs, kinds 5 and 6 or 6 alone, and a text as the condition of each sort
/// of record.
#[track_caller]
fn assert_character(inputs: u8, text: &[u8], character: usize) {
    let alone = File { inputs, ..lamp() }.starts("1");
    let both = alone.clone().never("0");
    for (file, record) in [(&both, 0), (&both, 2), (&both, 4), (&both, 5), (&alone, 4)] {
        let file = file.clone().bytes_with(record, text);
        let right =
            Contents { answer: Answer::refused(5, record), character, ..Contents::default() };
        assert_eq!(read(&file, COUPLES), right, "{}", String::from_utf8_lossy(text));
    }
}

/// The texts of document 01 that do not read, and others like them.
#[test]
fn rows() {
    for (inputs, text, character) in [
        (2, "a+", 3),
        (2, "()", 2),
        (2, "c", 1),
        (1, "", 1),
        (2, "a b", 2),
        (1, "!a)", 3),
        (1, "a.", 3),
        (1, "0a", 2),
        (1, "+a", 1),
        (1, "a+.a", 3),
        (1, "!", 2),
        (1, "(a", 3),
        (2, "a.(b+", 6),
        (3, "a.(b+d)", 6),
        (8, "h+i", 3),
        (8, "A", 1),
        (1, "a+a)+b", 4),
        (1, "a\n", 2),
    ] {
        assert_character(inputs, text.as_bytes(), character);
    }
}

#[test]
fn the_ninth_parenthesis() {
    let open = |count: usize| "(".repeat(count);
    assert_character(1, open(8).as_bytes(), 9);
    assert_character(1, open(9).as_bytes(), 9);
    assert_character(1, format!("a.!{}a)+((a", open(8)).as_bytes(), 16);
}

/// Texts of the most bytes: a continuation may be longer than a record can hold.
#[test]
fn long_texts() {
    assert_character(1, &[b'!'; TEXT], TEXT + 1);
    assert_character(1, &[&b"a+".repeat(TEXT / 2)[..], b"b"].concat(), TEXT);
    assert_character(1, &[b' '; TEXT], 1);
}

/// A byte that is no sign of a condition, at each place.
#[test]
fn bytes_of_no_condition() {
    for byte in (0..=u8::MAX).filter(|byte| !b"!().+01a".contains(byte)) {
        for (at, character) in [(0, 1), (2, 3), (3, 4)] {
            let mut text = b"a+a".to_vec();
            text.insert(at, byte);
            assert_character(1, &text, character);
        }
    }
}

/// Zero on success and with every refusal but 5.
#[test]
fn no_character() {
    let mut met = BTreeSet::new();
    let files = examples::all().into_iter().map(|example| (example.bytes, COUPLES));
    for (file, couples) in files.chain([(lamp().bytes(), 3)]) {
        let Contents { answer, character, .. } = read(&file, couples);
        assert_eq!(character != 0, answer.number == 5, "{answer:?}");
        met.insert(answer.number);
    }
    assert_eq!(met, (0..=13).collect());
}
