//! The least run to each couple: how it is followed back, what it visits, and its stored form.

use super::machine::Machine;
use super::runs::LENGTH_BYTES;
use crate::Answer;

/// The run to each couple that runs visit, known by its length and its way back.
pub trait LeastRuns {
    /// The machine that the runs are of.
    fn machine(&self) -> &Machine<'_>;

    /// Number of settings of the run to a couple; none if no run visits it.
    fn length(&self, couple: usize) -> Option<usize>;

    /// The resting couple before the last change of the run to a couple; none at a start.
    fn parent(&self, couple: usize) -> Option<usize>;

    /// Writes the run to a couple from its last setting back to its start.
    fn write_run(&self, couple: usize, run: &mut [u8]) {
        let mut at = couple;
        for setting in run.iter_mut().rev() {
            *setting = self.machine().setting(at) as u8;
            at = self.parent(at).unwrap_or(at);
        }
    }

    /// Flags the couples that the run to a couple visits.
    fn visit_run(&self, couple: usize, visited: &mut [bool]) {
        let mut at = couple;
        while let Some(parent) = self.parent(at) {
            let state = self.machine().state(parent);
            for couple in self.machine().visits(state, self.machine().setting(at)) {
                visited[couple] = true;
            }
            at = parent;
        }
        visited[at] = true;
    }

    /// The couples among those asked for, rising, that some run visits, but not the run to an
    /// earlier one of them; each with the number of settings of its run.
    fn chosen(&self, asked: impl Fn(usize) -> bool) -> Vec<(usize, usize)> {
        let mut visited = vec![false; self.machine().couples()];
        let mut chosen = Vec::new();
        for couple in (0..self.machine().couples()).filter(|&couple| asked(couple)) {
            if let Some(length) = self.length(couple).filter(|_| !visited[couple]) {
                self.visit_run(couple, &mut visited);
                chosen.push((couple, length));
            }
        }
        chosen
    }

    /// Writes the run to a couple into the front of a buffer: checks 14, `unvisited` and 16.
    fn write_to(&self, couple: usize, unvisited: usize, run: &mut [u8]) -> Answer {
        if couple >= self.machine().couples() {
            return Answer::refused(14, 0);
        }
        let Some(length) = self.length(couple) else {
            return Answer::refused(unvisited, 0);
        };
        if run.len() < length {
            return Answer::refused(16, length);
        }
        self.write_run(couple, &mut run[..length]);
        Answer::done(length)
    }

    /// Writes the stored runs to the chosen couples into the front of a buffer, each behind the bytes
    /// that come before it: check 16.
    fn write_stored<const BEFORE: usize>(
        &self,
        chosen: &[(usize, usize)],
        before: impl Fn(usize) -> [u8; BEFORE],
        buffer: &mut [u8],
    ) -> Answer {
        let needed = chosen.iter().map(|(_, length)| BEFORE + LENGTH_BYTES + length).sum();
        if buffer.len() < needed {
            return Answer::refused(16, needed);
        }
        let mut unused = buffer;
        for &(couple, length) in chosen {
            let (stored, rest) = unused.split_at_mut(BEFORE + LENGTH_BYTES + length);
            let (first, stored) = stored.split_at_mut(BEFORE);
            let (count, settings) = stored.split_at_mut(LENGTH_BYTES);
            first.copy_from_slice(&before(couple));
            count.copy_from_slice(&(length as u16).to_le_bytes());
            self.write_run(couple, settings);
            unused = rest;
        }
        Answer::done(needed)
    }
}
