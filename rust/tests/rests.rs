//! Files without rest conditions, SEQ2: what they say and what they are refused for, and the SEQ1 file
//! with each rest condition as the negated sum of the conditions of the state's evolutions, where that
//! fits.

use mundrefol::examples::{cutter, gate, lamp, table_iv};
use mundrefol::file::{File, Leaving};
use mundrefol::generate::{nested, padded};
use mundrefol::plain::{self, with_rests, Unfit, COUPLES, EVOLUTIONS, STATES};
use mundrefol::plain::{FILE, NO_MOVE, PARENTHESES, TEXT};
use mundrefol::{Answer, Contents, Evolution};

/// What reading a file gives.
#[derive(PartialEq, Debug)]
struct Read {
    contents: Contents,
    table: Vec<u8>,
    words: Vec<u16>,
    records: Vec<Evolution>,
}

/// Reads a file by both, which must agree.
fn read(file: &[u8]) -> Read {
    let [library, plain] = [mundrefol::read, plain::read].map(|by| {
        let (mut table, mut words) = (vec![77; COUPLES], vec![7_777; STATES]);
        let mut records = vec![Evolution::default(); EVOLUTIONS];
        let contents = by(file, &mut table, &mut words, &mut records);
        Read { contents, table, words, records }
    });
    assert_eq!(library, plain);
    plain
}

fn answer(file: &[u8]) -> Answer {
    read(file).contents.answer
}

/// Contents, table and words; the places of the conditions differ by the rest conditions.
#[test]
fn as_with_rest_conditions() {
    for file in [lamp(), gate(), gate().never("a.b"), cutter(), cutter().starts("b"), table_iv()] {
        let rests: usize = file.states.iter().map(|state| state.rest.len()).sum();
        let (with, mut without) = (read(&file.bytes()), read(&file.without_rests().bytes()));
        let evolutions = without.contents.evolutions;
        without.records[..evolutions].iter_mut().for_each(|record| record.at += rests as u16);
        assert_eq!(without, with);
        assert_eq!(with.contents.answer, Answer::done(0));
    }
}

/// A file of one input, two states and these evolutions, without rest conditions.
fn of_two(evolutions: &[(u8, u8, &str)]) -> File {
    File::new(1, 1, &[(0, ""), (1, "")], evolutions).without_rests()
}

#[test]
fn a_state_rests_where_no_evolution_holds() {
    let moves = |evolutions: &[(u8, u8, &str)]| {
        let Read { contents, table, .. } = read(&of_two(evolutions).bytes());
        (contents.answer, [table[0], table[1], table[2], table[3]])
    };
    assert_eq!(moves(&[(0, 1, "a"), (1, 0, "!a")]), (Answer::done(0), [0, 1, 0, 1]));
    assert_eq!(moves(&[(0, 1, "a")]), (Answer::done(0), [0, 1, 1, 1]));
    assert_eq!(moves(&[(0, 1, "a"), (1, 0, "0")]), (Answer::done(0), [0, 1, 1, 1]));
    assert_eq!(moves(&[]), (Answer::refused(12, 1), [NO_MOVE; 4]));
    assert_eq!(moves(&[(0, 1, "1")]), (Answer::refused(13, 0), [NO_MOVE; 4]));
    assert_eq!(moves(&[(0, 1, "a"), (1, 0, "1")]), (Answer::refused(10, 1), [NO_MOVE; 4]));
    assert_eq!(moves(&[(0, 1, ""), (1, 0, "")]), (Answer::refused(5, 2), [NO_MOVE; 4]));
    let alone = File::new(1, 1, &[(0, "")], &[]).without_rests();
    assert_eq!(read(&alone.bytes()).table[..3], [0, 0, 77]);
}

/// Two of a state's evolutions hold for state 1 at setting 2.
#[test]
fn two_evolutions_hold() {
    let evolutions = [(0, 1, "a"), (1, 2, "!a"), (1, 0, "!a.b"), (2, 0, "0")];
    let file = File::new(2, 2, &[(0, ""), (1, ""), (2, "")], &evolutions).without_rests();
    assert_eq!(answer(&file.bytes()), Answer::refused(8, 4 + 2));
}

/// Whatever the length, whether the texts have so many bytes or not, and whatever else is wrong.
#[test]
fn a_state_with_a_length() {
    let lamp = || lamp().without_rests();
    for (state, length) in (1..=TEXT).flat_map(|length| [(0, length), (1, length)]) {
        let mut with_text = lamp();
        *with_text.condition_mut(state) = padded("a".to_string(), length);
        let mut alone = lamp().bytes();
        alone[29 + 3 * state + 2] = length as u8;
        for file in [with_text.clone().bytes(), alone, with_text.never("").bytes()] {
            assert_eq!(answer(&file), Answer::refused(2, 0), "{length} in state {state}");
        }
    }
}

/// The rest conditions as they are written, and the same table.
#[test]
fn rest_conditions_written_out() {
    let evolutions = [(1, 0, "!a"), (0, 1, "a.b"), (0, 2, "a.!b+0"), (2, 0, "(!a)")];
    let bare = File::new(2, 2, &[(0, ""), (1, ""), (2, ""), (3, "")], &evolutions);
    let rests = ["!(a.b+a.!b+0)", "!(!a)", "!((!a))", "1"];
    let mut written = bare.clone().never("b").starts("1+");
    for (state, rest) in written.states.iter_mut().zip(rests) {
        state.rest = rest.to_string();
    }
    let file = bare.without_rests().never("b").starts("1+").bytes();
    assert_eq!(with_rests(&file), Ok(written.bytes()));
    assert_eq!(with_rests(&written.bytes()), Err(Unfit::Contents));
    assert_eq!(with_rests(&file[1..]), Err(Unfit::Contents));
}

/// The lamp, its way to state 1 under this condition.
fn lamp_on(condition: &str) -> Vec<u8> {
    of_two(&[(0, 1, condition), (1, 0, "!a")]).bytes()
}

/// The file reads as the lamp, and so does its SEQ1 file, if there is one.
#[track_caller]
fn assert_fits(file: &[u8], unfit: Option<Unfit>) {
    let with = with_rests(file);
    assert_eq!(with.as_ref().err().copied(), unfit);
    for file in [Ok(file.to_vec()), with].into_iter().flatten() {
        let Read { contents, table, .. } = read(&file);
        assert_eq!((contents.answer, &table[..4]), (Answer::done(0), &[0, 1, 0, 1][..]));
    }
}

/// Three characters stand around the conditions, and one between two of them.
#[test]
fn rest_conditions_of_most_bytes() {
    let text = |bytes: usize| {
        let text = padded("a".to_string(), bytes);
        assert_eq!(text.len(), bytes);
        text
    };
    assert_fits(&lamp_on(&text(TEXT - 3)), None);
    assert_fits(&lamp_on(&text(TEXT - 2)), Some(Unfit::Text));
    assert_fits(&lamp_on(&text(TEXT)), Some(Unfit::Text));
    let of_both = |bytes: usize| of_two(&[(0, 1, "a"), (0, 1, &text(bytes))]).bytes();
    assert_eq!(with_rests(&of_both(TEXT - 5)).map(|with| with[31]), Ok(TEXT as u8));
    assert_eq!(with_rests(&of_both(TEXT - 4)), Err(Unfit::Text));
}

/// One parenthesis stands around the condition.
#[test]
fn rest_conditions_of_most_parentheses() {
    let open = |parentheses: usize| nested("a", parentheses);
    assert_fits(&lamp_on(&open(PARENTHESES - 1)), None);
    assert_fits(&lamp_on(&open(PARENTHESES)), Some(Unfit::Parentheses));
    let mut file = lamp();
    *file.condition_mut(0) = format!("!{}", open(PARENTHESES + 1));
    assert_eq!(answer(&file.bytes()), Answer::refused(5, 0));
}

/// The lamp with so many bytes, by evolutions from a state that there is not: those of its own states
/// would pass the length of a rest condition long before.
fn long_lamp(bytes: usize) -> Vec<u8> {
    let mut file = of_two(&[(0, 1, "a"), (1, 0, "!a")]);
    let mut missing = bytes - file.bytes().len();
    while missing > 0 {
        let length = if missing > TEXT { 100 } else { missing - 3 };
        file.evolutions.push(Leaving { source: 2, target: 0, condition: "1".repeat(length) });
        missing -= 3 + length;
    }
    file.bytes()
}

/// The lamp's rest conditions are `!(a)` and `!(!a)`.
#[test]
fn files_of_most_bytes() {
    let most = FILE - "!(a)!(!a)".len();
    let with = with_rests(&long_lamp(most)).expect("the file fits");
    assert_eq!(with.len(), FILE);
    assert_eq!(with_rests(&long_lamp(most + 1)), Err(Unfit::File));
    for file in [with, long_lamp(most + 1)] {
        assert_eq!(answer(&file), Answer::refused(4, 4));
    }
}
