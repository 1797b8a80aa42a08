//! The jobs of runs that may change several inputs by the library's plan of work, for the benchmark:
//! one queue of couples, the lighter first, with two heads.

use super::least::LeastRuns;
use super::machine::Machine;
use super::marking::checked;
use super::{COUPLES, UNMARKED};
use crate::{Answer, Frame};

/// As `multi_run_to`.
pub fn multi_run_to(
    frame: Frame,
    table: &[u8],
    ranks: &mut [u16],
    couple: usize,
    run: &mut [u8],
) -> Answer {
    match Queue::new(frame, table, ranks) {
        Ok(queue) => queue.write_to(couple, 20, run),
        Err(answer) => answer,
    }
}

/// As `multi_list`.
pub fn multi_list(frame: Frame, table: &[u8], ranks: &mut [u16], list: &mut [u8]) -> Answer {
    match Queue::new(frame, table, ranks) {
        Ok(queue) => {
            let chosen = queue.chosen(|couple| queue.weights[couple] >= MULTIPLE);
            let multiple =
                |couple: usize| ((queue.weights[couple] / MULTIPLE) as u16).to_le_bytes();
            queue.write_stored(&chosen, multiple, list)
        }
        Err(answer) => answer,
    }
}

/// What a multiple change weighs beside the 1 of every change: more than all changes of a least run.
const MULTIPLE: u32 = 65_536;

/// The weight of a couple that is not in the queue.
const NONE: u32 = u32::MAX;

const _: () = assert!(COUPLES < MULTIPLE as usize);

/// A machine with the weight and the parent of each couple, and the couples that have a weight, the
/// lighter first.
struct Queue<'a> {
    machine: Machine<'a>,
    weights: Vec<u32>,
    parents: Vec<u16>,
    queue: Vec<u16>,
}

impl<'a> Queue<'a> {
    /// Checks 2, 3, 4, 10 and 13, the weights, and out of them the ranks.
    fn new(frame: Frame, table: &'a [u8], ranks: &mut [u16]) -> Result<Self, Answer> {
        let (machine, ranks) = checked(frame, table, ranks)?;
        let couples = machine.couples();
        let (weights, parents) = (vec![NONE; couples], vec![0; couples]);
        let mut queue = Queue { machine, weights, parents, queue: Vec::with_capacity(couples) };
        queue.fill();
        for (rank, &weight) in ranks.iter_mut().zip(&queue.weights) {
            *rank = if weight < MULTIPLE { weight as u16 } else { UNMARKED };
        }
        Ok(queue)
    }

    /// Round by round, the next weight first: head `single` makes the single changes of the couples that
    /// it passes, head `many` the multiple ones, until every couple is in the queue or both are at its end.
    fn fill(&mut self) {
        let machine = self.machine;
        for setting in (0..machine.settings()).filter(|&setting| machine.starts(setting)) {
            self.push(machine.couple(machine.frame.initial, setting), 0, 0);
        }
        let (mut single, mut many) = (0, 0);
        while many < self.queue.len() && self.queue.len() < machine.couples() {
            let weight = self.after(single, 1).min(self.after(many, 1 + MULTIPLE));
            while self.after(single, 1) == weight {
                self.change_one(single, weight);
                single += 1;
            }
            while self.after(many, 1 + MULTIPLE) == weight {
                self.change_many(many, weight);
                many += 1;
            }
        }
    }

    /// The weight after a change from the couple under a head; none at the end of the queue.
    fn after(&self, head: usize, change: u32) -> u32 {
        self.queue.get(head).map_or(NONE, |&couple| self.weights[usize::from(couple)] + change)
    }

    /// Makes the single changes from the couple under a head.
    fn change_one(&mut self, head: usize, weight: u32) {
        let parent = usize::from(self.queue[head]);
        if self.machine.rests(parent) {
            for input in 0..self.machine.frame.inputs {
                self.change(parent, self.machine.setting(parent) ^ 1 << input, weight);
            }
        }
    }

    /// Makes the multiple changes from the couple under a head.
    fn change_many(&mut self, head: usize, weight: u32) {
        let parent = usize::from(self.queue[head]);
        if self.machine.rests(parent) {
            let from = self.machine.setting(parent);
            for to in 0..self.machine.settings() {
                if (from ^ to).count_ones() > 1 {
                    self.change(parent, to, weight);
                }
            }
        }
    }

    /// Makes one change from a resting couple, unless the setting is ruled out.
    fn change(&mut self, parent: usize, to: usize, weight: u32) {
        if !self.machine.frame.rules_out(to) {
            let [changed, moved] = self.machine.visits(self.machine.state(parent), to);
            self.push(changed, weight, parent);
            self.push(moved, weight, parent);
        }
    }

    /// A couple without a weight takes this one and enters the queue; of two parents at one weight the
    /// smaller stays.
    fn push(&mut self, couple: usize, weight: u32, parent: usize) {
        if self.weights[couple] == NONE {
            self.weights[couple] = weight;
            self.parents[couple] = parent as u16;
            self.queue.push(couple as u16);
        } else if self.weights[couple] == weight && parent < usize::from(self.parents[couple]) {
            self.parents[couple] = parent as u16;
        }
    }
}

impl LeastRuns for Queue<'_> {
    fn machine(&self) -> &Machine<'_> {
        &self.machine
    }

    fn length(&self, couple: usize) -> Option<usize> {
        let weight = self.weights[couple];
        (weight != NONE).then(|| (weight % MULTIPLE) as usize + 1)
    }

    fn parent(&self, couple: usize) -> Option<usize> {
        (self.weights[couple] > 0).then(|| usize::from(self.parents[couple]))
    }
}

#[cfg(test)]
mod tests {
    use crate::generate::{any_apart, longest_table, widest_table, Random, Table};
    use crate::plain::{self, queue, Write};
    use crate::Answer;

    /// What a job answers and leaves in ranks and list, with room for so many bytes.
    fn left(table: &Table, job: Write, bytes: usize) -> (Answer, Vec<u16>, Vec<u8>) {
        let (mut ranks, mut list) = (vec![7; table.moves.len() + 1], vec![7; bytes]);
        let answer = job(table.frame, &table.moves, &mut ranks, &mut list);
        (answer, ranks, list)
    }

    /// Answers, ranks and lists, with and without room, and the run to some couple.
    fn agree(random: &mut Random, table: &Table) {
        let needed = left(table, plain::multi_list, 0).0.place;
        for bytes in [0, needed, needed + 1] {
            assert_eq!(
                left(table, queue::multi_list, bytes),
                left(table, plain::multi_list, bytes)
            );
        }
        let couple = random.below(table.moves.len() + 1);
        let [ours, theirs] = [queue::multi_run_to, plain::multi_run_to].map(|job| {
            let (mut ranks, mut run) = (vec![7; table.moves.len()], vec![7; table.moves.len()]);
            (job(table.frame, &table.moves, &mut ranks, couple, &mut run), ranks, run)
        });
        assert_eq!(ours, theirs);
    }

    /// The search with two heads gives what the search by costs gives.
    #[test]
    fn both_searches_agree() {
        let random = &mut Random::new(1);
        for _ in 0..3_000 {
            let table = any_apart(random);
            agree(random, &table);
        }
        agree(random, &longest_table());
        agree(random, &widest_table());
    }
}
