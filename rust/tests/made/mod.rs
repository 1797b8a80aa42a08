//! What the library makes of a file: what reading answers, ranks and plan.

use mundrefol::file::File;
use mundrefol::plain::{Set, COUPLES, EVOLUTIONS, STATES, UNMARKED};
use mundrefol::{Answer, Contents, Evolution, Frame};

/// Conditions at a number of inputs, with the settings at which they hold.
pub const SETS: [(u8, &str, Set); 7] = [
    (1, "a", [2, 0, 0, 0]),
    (3, "b.c", [0xc0, 0, 0, 0]),
    (3, "!a", [0x55, 0, 0, 0]),
    (6, "f", [!0 << 32, 0, 0, 0]),
    (7, "!g", [!0, 0, 0, 0]),
    (8, "h", [0, 0, !0, !0]),
    (8, "g.!h+a", [0xaaaa_aaaa_aaaa_aaaa, !0, !0 / 3 * 2, !0 / 3 * 2]),
];

#[derive(PartialEq, Debug)]
pub struct Made {
    pub contents: Contents,
    pub table: Vec<u8>,
    pub words: Vec<u16>,
    pub answers: [Answer; 2],
    pub ranks: Vec<u16>,
    pub plan: Vec<u8>,
}

/// Reads a file, marks its couples and writes its plan.
pub fn made(file: &File) -> Made {
    let (mut table, mut words) = (vec![77; COUPLES], vec![7_777; STATES]);
    let mut records = vec![Evolution::default(); EVOLUTIONS];
    let contents = mundrefol::read(&file.bytes(), &mut table, &mut words, &mut records);
    let (answers, ranks, plan) = jobs(contents.frame, &table);
    Made { contents, table, words, answers, ranks, plan }
}

/// The answers of marking and plan, the ranks, and the plan with one byte beyond it.
pub fn jobs(frame: Frame, table: &[u8]) -> ([Answer; 2], Vec<u16>, Vec<u8>) {
    let (mut ranks, mut again) = (vec![7; COUPLES], vec![7; COUPLES]);
    let marked = mundrefol::mark(frame, table, &mut ranks);
    let needed = mundrefol::plan(frame, table, &mut again, &mut []).place;
    let mut plan = vec![7; needed + 1];
    let planned = mundrefol::plan(frame, table, &mut again, &mut plan);
    assert_eq!(ranks, again);
    ([marked, planned], ranks, plan)
}

/// The marked couples of a file that reads.
pub fn marked(file: &File) -> Vec<usize> {
    let Made { contents, ranks, .. } = made(file);
    assert_eq!(contents.answer, Answer::done(0));
    (0..contents.frame.couples()).filter(|&couple| ranks[couple] != UNMARKED).collect()
}

/// A file of one state, which rests everywhere.
pub fn one_state(inputs: u8) -> File {
    File::new(inputs, 1, &[(0, "1")], &[])
}
