//! The run to a couple, and the plan.

use super::least::LeastRuns;
use super::machine::Machine;
use super::marking::Marked;
use crate::{Answer, Frame};

/// Writing the run to a couple.
pub type RunTo = fn(Frame, &[u8], &mut [u16], usize, &mut [u8]) -> Answer;

/// Writes the run to a couple; the place is its number of settings.
pub fn run_to(
    frame: Frame,
    table: &[u8],
    ranks: &mut [u16],
    couple: usize,
    run: &mut [u8],
) -> Answer {
    match Marked::new(frame, table, ranks) {
        Ok(marked) => marked.write_to(couple, 15, run),
        Err(answer) => answer,
    }
}

/// Writes the plan; the place is its number of bytes.
pub fn plan(frame: Frame, table: &[u8], ranks: &mut [u16], plan: &mut [u8]) -> Answer {
    match Marked::new(frame, table, ranks) {
        Ok(marked) => marked.write_stored(&marked.chosen(|_| true), |_| [], plan),
        Err(answer) => answer,
    }
}

impl LeastRuns for Marked<'_> {
    fn machine(&self) -> &Machine<'_> {
        &self.machine
    }

    fn length(&self, couple: usize) -> Option<usize> {
        self.is_marked(couple).then(|| usize::from(self.ranks[couple]) + 1)
    }

    fn parent(&self, couple: usize) -> Option<usize> {
        (self.ranks[couple] > 0).then(|| usize::from(self.parents[couple]))
    }
}
