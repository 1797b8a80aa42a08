//! Runs followed step by step, apart from both implementations: starts, visits, readings.

use mundrefol::generate::Table;
use std::collections::BTreeSet;

/// The state that follows a state at a setting.
pub fn follow(table: &Table, state: usize, setting: usize) -> usize {
    usize::from(table.moves[state * (1 << table.frame.inputs) + setting])
}

/// The bit of a setting in a set: they are counted from the lowest of the first word on.
fn bit(set: &[u64], setting: usize) -> bool {
    let mut bits = set.iter().flat_map(|word| (0..64).map(move |bit| word & 1 << bit));
    bits.nth(setting).is_some_and(|bit| bit != 0)
}

/// Whether a setting may be used.
pub fn is_used(table: &Table, setting: usize) -> bool {
    !bit(&table.frame.never, setting)
}

/// The settings at which a run may start: where the initial state rests, of those used and allowed.
pub fn starts(table: &Table) -> Vec<usize> {
    let rests =
        |&setting: &usize| follow(table, table.frame.initial, setting) == table.frame.initial;
    let used = |&setting: &usize| is_used(table, setting);
    let allowed = |&setting: &usize| bit(&table.frame.starts, setting);
    (0..1 << table.frame.inputs).filter(rests).filter(used).filter(allowed).collect()
}

/// The couples that a run visits, and the resting couple before each change.
pub fn visits(table: &Table, run: &[usize]) -> (BTreeSet<usize>, Vec<usize>) {
    let couple = |state: usize, setting: usize| state * (1 << table.frame.inputs) + setting;
    let mut state = table.frame.initial;
    let mut at = couple(state, run[0]);
    let mut visited = BTreeSet::from([at]);
    let mut resting = Vec::new();
    for &setting in &run[1..] {
        resting.push(at);
        visited.insert(couple(state, setting));
        state = follow(table, state, setting);
        at = couple(state, setting);
        visited.insert(at);
    }
    (visited, resting)
}

/// Readings of a board on a run: after the start one move, after each change one and one more.
pub fn readings(board: &Table, words: &[u16], run: &[usize]) -> Vec<u16> {
    let mut state = follow(board, board.frame.initial, run[0]);
    let mut readings = vec![words[state]];
    for &setting in &run[1..] {
        for _ in 0..2 {
            state = follow(board, state, setting);
            readings.push(words[state]);
        }
    }
    readings
}
