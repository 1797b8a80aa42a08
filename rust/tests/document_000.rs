//! Source document 000's automaton, which it gives without rest conditions: as a SEQ2 file it is read
//! to the published table, by both implementations.

use mundrefol::examples::table_3;
use mundrefol::file::File;
use mundrefol::plain::{self, COUPLES, EVOLUTIONS, STATES};
use mundrefol::{Answer, Evolution};

/// Table 3: for each input event i0 to i7 and each state s1 to s6 the state that follows and the output
/// event, by their numbers.
const TABLE_3: [[(u8, usize); 6]; 8] = [
    [(3, 3), (2, 4), (3, 3), (4, 6), (5, 5), (6, 1)],
    [(3, 3), (2, 4), (3, 3), (4, 6), (6, 1), (6, 1)],
    [(3, 3), (2, 4), (3, 3), (6, 1), (5, 5), (6, 1)],
    [(2, 4), (2, 4), (3, 3), (6, 1), (6, 1), (6, 1)],
    [(1, 0), (1, 0), (3, 3), (4, 6), (5, 5), (1, 0)],
    [(1, 0), (2, 4), (4, 6), (4, 6), (6, 1), (6, 1)],
    [(1, 0), (2, 4), (5, 5), (6, 1), (5, 5), (6, 1)],
    [(1, 0), (2, 4), (3, 3), (6, 1), (6, 1), (6, 1)],
];

/// The number of the same three inputs or outputs in the other order: there a and U weigh 4, here 1.
fn reversed(number: usize) -> usize {
    number >> 2 & 1 | number & 2 | (number & 1) << 2
}

/// What a file is read to: for each input event and state the state that follows and the output event.
fn read(file: &File, by: plain::Read) -> [[(u8, usize); 6]; 8] {
    let (mut table, mut words) = (vec![99; COUPLES], vec![99; STATES]);
    let mut records = vec![Evolution::default(); EVOLUTIONS];
    let contents = by(&file.bytes(), &mut table, &mut words, &mut records);
    assert_eq!((contents.answer, contents.evolutions), (Answer::done(0), 8));
    assert_eq!((table[48], words[6]), (99, 99));
    let follows = |event: usize, state: usize| {
        let next = table[8 * state + reversed(event)];
        (next + 1, reversed(words[usize::from(next)].into()))
    };
    std::array::from_fn(|event| std::array::from_fn(|state| follows(event, state)))
}

#[test]
fn table_3_is_the_published_table() {
    for by in [mundrefol::read, plain::read] {
        assert_eq!(read(&table_3(), by), TABLE_3);
    }
}

/// Equation 2 as it is printed has `!a.!(b+c)` from s1 to s3: at i1 and i2 s1 would rest.
#[test]
fn the_printed_equation_is_another_table() {
    let mut printed = table_3();
    printed.evolutions[1].condition = "!a.!(b+c)".to_string();
    let mut rests = TABLE_3;
    rests[1][0] = (1, 0);
    rests[2][0] = (1, 0);
    for by in [mundrefol::read, plain::read] {
        assert_eq!(read(&printed, by), rests);
    }
}
