//! Every run of a small table that may change several inputs, and the least of those that visit a couple.

use super::followed::{is_used, starts, visits};
use mundrefol::generate::{multiple_changes, Table};
use std::collections::BTreeMap;

/// A table with more runs than this is left out.
const MOST: usize = 8_000;

/// What the ticket compares of runs to a couple: multiple changes, changes, then the resting couples before
/// each change, from the last change back to the start.
type Compared = (usize, usize, Vec<usize>);

/// The runs of a table, one setting more at a time, until they come back to a resting couple: a longer one
/// then has a cheaper one without what lies between.
pub struct AllRuns<'a> {
    table: &'a Table,
    used: Vec<usize>,
    runs: usize,
    least: BTreeMap<usize, (Compared, Vec<usize>)>,
}

impl AllRuns<'_> {
    /// The least run to each couple that some run visits; none if there are too many runs.
    pub fn least(table: &Table) -> Option<BTreeMap<usize, Vec<usize>>> {
        let settings = 0..1 << table.frame.inputs;
        let used = settings.filter(|&setting| is_used(table, setting)).collect();
        let mut all = AllRuns { table, used, runs: 0, least: BTreeMap::new() };
        let whole = starts(table).into_iter().all(|start| all.lengthen(&mut vec![start]));
        let runs = all.least.into_iter().map(|(couple, (_, run))| (couple, run));
        whole.then(|| runs.collect())
    }

    /// Looks at a run and every longer one; not if there are too many.
    fn lengthen(&mut self, run: &mut Vec<usize>) -> bool {
        self.runs += 1;
        let (visited, mut resting) = visits(self.table, run);
        let comes_back = resting.contains(&self.resting_at(run));
        resting.reverse();
        let bytes: Vec<u8> = run.iter().map(|&setting| setting as u8).collect();
        let compared = (multiple_changes(&bytes), resting.len(), resting);
        for couple in visited {
            let least = self.least.entry(couple).or_insert_with(|| (compared.clone(), run.clone()));
            if compared < least.0 {
                *least = (compared.clone(), run.clone());
            }
        }
        if self.runs > MOST || comes_back {
            return self.runs <= MOST;
        }
        let last = run[run.len() - 1];
        let others = self.used.iter().copied().filter(|&setting| setting != last);
        others.collect::<Vec<_>>().into_iter().all(|next| {
            run.push(next);
            let whole = self.lengthen(run);
            run.pop();
            whole
        })
    }

    /// The resting couple at the end of a run.
    fn resting_at(&self, run: &[usize]) -> usize {
        let longer = [run, &run[run.len() - 1..]].concat();
        visits(self.table, &longer).1[run.len() - 1]
    }
}
