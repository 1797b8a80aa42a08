//! What the library answers for a table: ranks, runs, plan, the plan shortened, expected readings; and
//! boards tried on them.

use super::steps;
use mundrefol::generate::{runs_of, Table};
use mundrefol::plain::{COUPLES, UNMARKED};

/// The library's ranks.
pub fn ranks(table: &Table) -> Vec<u16> {
    let mut ranks = vec![7; table.moves.len()];
    let answer = mundrefol::mark(table.frame, &table.moves, &mut ranks);
    assert_eq!(answer.number, 0);
    ranks
}

/// The library's run to a couple.
pub fn run(table: &Table, couple: usize) -> Vec<usize> {
    let (mut ranks, mut run) = (vec![0; table.moves.len()], vec![0; COUPLES]);
    let answer = mundrefol::run_to(table.frame, &table.moves, &mut ranks, couple, &mut run);
    assert_eq!(answer.number, 0);
    run[..answer.place].iter().map(|&setting| usize::from(setting)).collect()
}

/// The library's plan.
pub fn plan(table: &Table) -> Vec<u8> {
    let mut ranks = vec![0; table.moves.len()];
    let needed = mundrefol::plan(table.frame, &table.moves, &mut ranks, &mut []).place;
    let mut plan = vec![0; needed];
    let answer = mundrefol::plan(table.frame, &table.moves, &mut ranks, &mut plan);
    assert_eq!((answer.number, answer.place), (0, needed));
    plan
}

/// What the library leaves of a plan.
pub fn shortened(table: &Table, mut plan: Vec<u8>) -> Vec<u8> {
    let answer = mundrefol::shorten(table.frame, &table.moves, &mut plan);
    assert_eq!(answer.number, 0);
    plan.truncate(answer.place);
    plan
}

/// The runs of a plan.
pub fn runs(plan: &[u8]) -> Vec<Vec<usize>> {
    let settings = |run: Vec<u8>| run.into_iter().map(usize::from).collect();
    runs_of(plan).into_iter().map(settings).collect()
}

/// The library's expected readings on a run.
fn readings(table: &Table, words: &[u16], run: &[usize]) -> Vec<u16> {
    let settings: Vec<u8> = run.iter().map(|&setting| setting as u8).collect();
    let mut readings = vec![0; 2 * run.len() - 1];
    let answer = mundrefol::expected(table.frame, &table.moves, words, &settings, &mut readings);
    assert_eq!((answer.number, answer.place), (0, readings.len()));
    readings
}

/// Words of the states: all different.
fn words(states: usize) -> Vec<u16> {
    (0..states as u16).map(|state| state.wrapping_mul(0x9e37) ^ 0x51).collect()
}

/// A run with its expected readings.
type Read = (Vec<usize>, Vec<u16>);

/// A plan with its expected readings, what is left of it when it is shortened, and the couples that
/// are marked.
pub struct Tested {
    pub table: Table,
    words: Vec<u16>,
    plan: Vec<Read>,
    shortened: Vec<Read>,
    pub marked: Vec<usize>,
}

impl Tested {
    pub fn new(table: Table) -> Tested {
        let words = words(table.frame.states);
        let with_readings = |run: Vec<usize>| {
            let expected = readings(&table, &words, &run);
            assert_eq!(expected, steps::readings(&table, &words, &run));
            (run, expected)
        };
        let stored = plan(&table);
        let plan = runs(&stored).into_iter().map(with_readings).collect();
        let shortened = runs(&shortened(&table, stored)).into_iter().map(with_readings).collect();
        let ranks = ranks(&table);
        let marked = (0..ranks.len()).filter(|&couple| ranks[couple] != UNMARKED).collect();
        Tested { table, words, plan, shortened, marked }
    }

    /// All readings match exactly if the moves at all marked couples do, those of the plan and those
    /// of the shortened plan. Answers whether they match.
    pub fn try_board(&self, board: &Table) -> bool {
        let matches =
            |(run, expected): &Read| steps::readings(board, &self.words, run) == *expected;
        let same = |&couple: &usize| board.moves[couple] == self.table.moves[couple];
        let right = self.marked.iter().all(same);
        for plan in [&self.plan, &self.shortened] {
            assert_eq!(plan.iter().all(matches), right, "{:?} on {:?}", board, self.table);
        }
        right
    }

    pub fn board(&self, moves: Vec<u8>) -> Table {
        Table { moves, ..self.table.clone() }
    }
}
