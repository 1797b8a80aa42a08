//! Runs that may change several inputs at once: the run to a couple, and the list.

use super::least::LeastRuns;
use super::machine::Machine;
use super::marking::Marked;
use crate::{Answer, Frame};
use std::collections::BTreeSet;

/// Writes the run to a couple, several inputs changing at once where they must; the place is its number
/// of settings.
pub fn multi_run_to(
    frame: Frame,
    table: &[u8],
    ranks: &mut [u16],
    couple: usize,
    run: &mut [u8],
) -> Answer {
    match Marked::new(frame, table, ranks) {
        Ok(marked) => Costs::new(marked.machine).write_to(couple, 20, run),
        Err(answer) => answer,
    }
}

/// Writes the list of the runs to unmarked couples; the place is its number of bytes.
pub fn multi_list(frame: Frame, table: &[u8], ranks: &mut [u16], list: &mut [u8]) -> Answer {
    let marked = match Marked::new(frame, table, ranks) {
        Ok(marked) => marked,
        Err(answer) => return answer,
    };
    let costs = Costs::new(marked.machine);
    let multiple = |couple: usize| (costs.costs[couple].0 as u16).to_le_bytes();
    costs.write_stored(&costs.chosen(|couple| !marked.is_marked(couple)), multiple, list)
}

/// What a run costs: its multiple changes first, then all its changes.
type Cost = (usize, usize);

/// The cost of a couple that no run visits.
const NO_RUN: Cost = (usize::MAX, usize::MAX);

/// A machine with the least cost of the runs that visit each couple and, for one change and more, the
/// smallest resting couple before the last change of such a run.
struct Costs<'a> {
    machine: Machine<'a>,
    costs: Vec<Cost>,
    parents: Vec<Option<usize>>,
}

impl<'a> Costs<'a> {
    fn new(machine: Machine<'a>) -> Self {
        let couples = machine.couples();
        let mut costs =
            Costs { machine, costs: vec![NO_RUN; couples], parents: vec![None; couples] };
        costs.settle();
        costs.find_parents();
        costs
    }

    /// Lowers the costs until no change from any resting couple lowers one more, the cheapest of the
    /// couples with a new cost first.
    fn settle(&mut self) {
        let machine = self.machine;
        let mut open = BTreeSet::new();
        for setting in (0..machine.settings()).filter(|&setting| machine.starts(setting)) {
            self.offer(machine.couple(machine.frame.initial, setting), (0, 0), &mut open);
        }
        while let Some((_, before)) = open.pop_first() {
            for (cost, visited) in self.changes(before) {
                visited.into_iter().for_each(|couple| self.offer(couple, cost, &mut open));
            }
        }
    }

    /// Each change from a resting couple that has a cost: the cost after it, and the couples it visits.
    fn changes(&self, before: usize) -> impl Iterator<Item = (Cost, [usize; 2])> + use<'a> {
        let (machine, (multiple, changes)) = (self.machine, self.costs[before]);
        let (state, from) = (machine.state(before), machine.setting(before));
        let others = (0..machine.settings()).filter(move |&to| to != from);
        others.filter(move |&to| !machine.frame.rules_out(to)).map(move |to| {
            let several = (from ^ to).count_ones() > 1;
            ((multiple + usize::from(several), changes + 1), machine.visits(state, to))
        })
    }

    /// Lowers the cost of a couple to that of a run that visits it; a resting one is open again.
    fn offer(&mut self, couple: usize, cost: Cost, open: &mut BTreeSet<(Cost, usize)>) {
        let known = self.costs[couple];
        if cost < known {
            self.costs[couple] = cost;
            if self.machine.rests(couple) {
                open.remove(&(known, couple));
                open.insert((cost, couple));
            }
        }
    }

    /// Goes through the resting couples in rising number: the first from which one change visits a couple
    /// at its least cost is its parent.
    fn find_parents(&mut self) {
        let visited = |costs: &Self, couple: usize| costs.costs[couple] != NO_RUN;
        for before in 0..self.machine.couples() {
            if !self.machine.rests(before) || !visited(self, before) {
                continue;
            }
            for (cost, couples) in self.changes(before) {
                for couple in couples.into_iter().filter(|&couple| self.costs[couple] == cost) {
                    self.parents[couple].get_or_insert(before);
                }
            }
        }
    }
}

impl LeastRuns for Costs<'_> {
    fn machine(&self) -> &Machine<'_> {
        &self.machine
    }

    fn length(&self, couple: usize) -> Option<usize> {
        (self.costs[couple] != NO_RUN).then(|| self.costs[couple].1 + 1)
    }

    fn parent(&self, couple: usize) -> Option<usize> {
        self.parents[couple]
    }
}
