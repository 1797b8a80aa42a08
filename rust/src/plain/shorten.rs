//! Shortening a plan: a run goes if other runs still in visit every couple that it visits.

use super::machine::Machine;
use super::runs::{first_fault, split_first, visits, LENGTH_BYTES, ONE};
use crate::{Answer, Frame};
use std::mem::replace;
use std::ops::Range;

/// Takes out the runs of a plan that are not needed, from first to last; the place is the number of
/// bytes left.
pub fn shorten(frame: Frame, table: &[u8], plan: &mut [u8]) -> Answer {
    match checked(frame, table, plan) {
        Ok((machine, runs)) => Answer::done(take_out(&machine, &runs, plan)),
        Err(answer) => answer,
    }
}

/// Checks 2, 3, 4, 10 and 19: the machine, and where each stored run stands in the plan.
fn checked<'a>(
    frame: Frame,
    table: &'a [u8],
    plan: &[u8],
) -> Result<(Machine<'a>, Vec<Range<usize>>), Answer> {
    let machine = Machine::new(frame, table, true, |_| Vec::new())?;
    machine.check_states()?;
    machine.check_transients()?;
    let runs = split(&machine, plan)?;
    Ok((machine, runs))
}

/// Check 19: the plan split into its stored runs.
fn split(machine: &Machine, plan: &[u8]) -> Result<Vec<Range<usize>>, Answer> {
    let mut runs = Vec::new();
    let mut start = 0;
    while start < plan.len() {
        let run = split_first(&plan[start..]).map(|(run, _)| run);
        let run = run.filter(|run| first_fault(machine, run, ONE).is_none());
        let end = start + LENGTH_BYTES + run.ok_or(Answer::refused(19, start))?.len();
        runs.push(start..end);
        start = end;
    }
    Ok(runs)
}

/// Moves the runs that stay to the front and answers their bytes.
fn take_out(machine: &Machine, runs: &[Range<usize>], plan: &mut [u8]) -> usize {
    let mut counts = Counts::new(machine);
    for run in runs {
        counts.count(settings(plan, run), |runs| *runs += 1);
    }
    let mut end = 0;
    for run in runs {
        if counts.can_spare(settings(plan, run)) {
            counts.count(settings(plan, run), |runs| *runs -= 1);
        } else {
            plan.copy_within(run.clone(), end);
            end += run.len();
        }
    }
    end
}

/// The settings of a stored run.
fn settings<'a>(plan: &'a [u8], run: &Range<usize>) -> &'a [u8] {
    &plan[run.start + LENGTH_BYTES..run.end]
}

/// How many runs still in visit each couple.
struct Counts<'a> {
    machine: &'a Machine<'a>,
    runs: Vec<usize>,
    /// The turn at which a couple was last counted: a run that comes there again counts once.
    counted: Vec<usize>,
    turn: usize,
}

impl<'a> Counts<'a> {
    fn new(machine: &'a Machine<'a>) -> Self {
        let couples = machine.couples();
        Counts { machine, runs: vec![0; couples], counted: vec![0; couples], turn: 0 }
    }

    /// Changes the count of each couple that a run visits, once.
    fn count(&mut self, run: &[u8], change: impl Fn(&mut usize)) {
        self.turn += 1;
        for couple in visits(self.machine, run) {
            if replace(&mut self.counted[couple], self.turn) != self.turn {
                change(&mut self.runs[couple]);
            }
        }
    }

    /// Whether some other run still in visits each couple that a run visits.
    fn can_spare(&self, run: &[u8]) -> bool {
        visits(self.machine, run).all(|couple| self.runs[couple] > 1)
    }
}
