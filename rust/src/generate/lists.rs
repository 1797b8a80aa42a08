//! The list of a table, and the runs of a list.

use super::tables::Table;
use crate::plain;

/// The runs of a list that splits into them, each with its count of multiple changes.
pub fn multi_runs_of(mut list: &[u8]) -> Vec<(usize, Vec<u8>)> {
    let mut runs = Vec::new();
    while let [low, high, count_low, count_high, after @ ..] = list {
        let number = |low: u8, high: u8| usize::from(u16::from_le_bytes([low, high]));
        let (run, unread) = after.split_at(number(*count_low, *count_high));
        runs.push((number(*low, *high), run.to_vec()));
        list = unread;
    }
    runs
}

/// How many changes of a run alter two or more inputs.
pub fn multiple_changes(run: &[u8]) -> usize {
    run.windows(2).filter(|pair| (pair[0] ^ pair[1]).count_ones() > 1).count()
}

/// The list of a table, by the independent implementation; none if the table is refused.
pub fn list_of(table: &Table) -> Vec<u8> {
    let mut ranks = vec![0; table.moves.len()];
    let needed = plain::multi_list(table.frame, &table.moves, &mut ranks, &mut []);
    let mut list = vec![0; if needed.number == 16 { needed.place } else { 0 }];
    plain::multi_list(table.frame, &table.moves, &mut ranks, &mut list);
    list
}
