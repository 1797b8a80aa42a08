//! Marking: ranks by a breadth-first queue of resting couples, and the least parent of each couple.

use super::machine::Machine;
use super::UNMARKED;
use crate::{Answer, Frame};

/// Marks the couples that runs visit: their ranks, 65,535 for the others.
pub fn mark(frame: Frame, table: &[u8], ranks: &mut [u16]) -> Answer {
    match Marked::new(frame, table, ranks) {
        Ok(_) => Answer::done(0),
        Err(answer) => answer,
    }
}

/// A machine with the rank of each couple and, for rank 1 and more, its parent: the smallest resting
/// couple of the rank below from which one change visits it.
pub struct Marked<'a> {
    pub machine: Machine<'a>,
    pub ranks: &'a mut [u16],
    pub parents: Vec<u16>,
}

/// Checks 2, 3, 4, 10 and 13: the machine, and the needed ranks, which are still those of unmarked couples.
pub fn checked<'a, 'b>(
    frame: Frame,
    table: &'a [u8],
    ranks: &'b mut [u16],
) -> Result<(Machine<'a>, &'b mut [u16]), Answer> {
    let length = ranks.len();
    let machine = Machine::new(frame, table, true, |couples| vec![(length, couples)])?;
    let ranks = &mut ranks[..machine.couples()];
    ranks.fill(UNMARKED);
    machine.check_states()?;
    machine.check_transients()?;
    machine.check_start()?;
    Ok((machine, ranks))
}

impl<'a> Marked<'a> {
    /// Checks 2, 3, 4, 10 and 13, and the ranks.
    pub fn new(frame: Frame, table: &'a [u8], ranks: &'a mut [u16]) -> Result<Self, Answer> {
        let (machine, ranks) = checked(frame, table, ranks)?;
        let parents = vec![0; machine.couples()];
        let mut marked = Marked { machine, ranks, parents };
        marked.search();
        Ok(marked)
    }

    /// Goes through the resting couples in the order of their ranks.
    fn search(&mut self) {
        let machine = self.machine;
        let mut queue = Vec::with_capacity(machine.couples());
        for setting in (0..machine.settings()).filter(|&setting| machine.starts(setting)) {
            let couple = machine.couple(machine.frame.initial, setting);
            self.ranks[couple] = 0;
            queue.push(couple);
        }
        let mut next = 0;
        while let Some(&parent) = queue.get(next) {
            let changed = (0..machine.frame.inputs).map(|input| parent ^ 1 << input);
            let rules_out = |&couple: &usize| machine.frame.rules_out(machine.setting(couple));
            for visited in changed.filter(|couple| !rules_out(couple)) {
                self.visit(parent, visited, &mut queue);
                if !machine.rests(visited) {
                    self.visit(parent, machine.moved(visited), &mut queue);
                }
            }
            next += 1;
        }
    }

    /// Notes that one change from the parent visits the couple.
    fn visit(&mut self, parent: usize, couple: usize, queue: &mut Vec<usize>) {
        let rank = self.ranks[parent] + 1;
        if self.ranks[couple] == UNMARKED {
            self.ranks[couple] = rank;
            self.parents[couple] = parent as u16;
            if self.machine.rests(couple) {
                queue.push(couple);
            }
        } else if self.ranks[couple] == rank && parent < usize::from(self.parents[couple]) {
            self.parents[couple] = parent as u16;
        }
    }

    /// Whether some run visits the couple.
    pub fn is_marked(&self, couple: usize) -> bool {
        self.ranks[couple] != UNMARKED
    }
}
