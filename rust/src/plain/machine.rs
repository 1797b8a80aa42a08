//! A table lent to a job: its moves, and the checks that every table job asks.

use super::{check_lengths, is_member, refuse_at, INPUTS, STATES};
use crate::{Answer, Frame};

/// A frame within its ranges, and the move of each couple.
#[derive(Clone, Copy)]
pub struct Machine<'a> {
    pub frame: Frame,
    pub moves: &'a [u8],
}

impl Frame {
    /// Whether inputs, states and initial state are in their ranges.
    pub fn fits(&self) -> bool {
        (1..=INPUTS).contains(&self.inputs)
            && (1..=STATES).contains(&self.states)
            && self.initial < self.states
    }

    /// Number of couples, of a frame within its ranges.
    pub fn couples(&self) -> usize {
        self.states << self.inputs
    }

    /// Whether a setting is never used.
    pub fn rules_out(&self, setting: usize) -> bool {
        is_member(&self.never, setting)
    }

    /// Whether a setting is one of the allowed starts.
    pub fn allows_start(&self, setting: usize) -> bool {
        is_member(&self.starts, setting)
    }
}

impl<'a> Machine<'a> {
    /// Checks 2 and 3: the frame and `more`, then the table and the buffers that `others` names by
    /// length and need, in this order.
    pub fn new(
        frame: Frame,
        table: &'a [u8],
        more: bool,
        others: impl Fn(usize) -> Vec<(usize, usize)>,
    ) -> Result<Self, Answer> {
        if !frame.fits() || !more {
            return Err(Answer::refused(2, 0));
        }
        let couples = frame.couples();
        check_lengths(&[(table.len(), couples)])?;
        check_lengths(&others(couples))?;
        Ok(Machine { frame, moves: &table[..couples] })
    }

    /// Number of settings.
    pub fn settings(&self) -> usize {
        1 << self.frame.inputs
    }

    /// Number of couples.
    pub fn couples(&self) -> usize {
        self.frame.couples()
    }

    /// Number of the couple of a state and a setting.
    pub fn couple(&self, state: usize, setting: usize) -> usize {
        state << self.frame.inputs | setting
    }

    /// State of a couple.
    pub fn state(&self, couple: usize) -> usize {
        couple >> self.frame.inputs
    }

    /// Setting of a couple.
    pub fn setting(&self, couple: usize) -> usize {
        couple & (self.settings() - 1)
    }

    /// State that follows a couple.
    pub fn to(&self, couple: usize) -> usize {
        usize::from(self.moves[couple])
    }

    /// Couple that a couple moves to, at the same setting.
    pub fn moved(&self, couple: usize) -> usize {
        self.couple(self.to(couple), self.setting(couple))
    }

    /// Couples that a change to a setting visits, of a state: its own there, and the one it moves to.
    pub fn visits(&self, state: usize, setting: usize) -> [usize; 2] {
        let changed = self.couple(state, setting);
        [changed, self.moved(changed)]
    }

    /// Whether a couple is at rest.
    pub fn rests(&self, couple: usize) -> bool {
        self.to(couple) == self.state(couple)
    }

    /// Whether a run may start at a setting.
    pub fn starts(&self, setting: usize) -> bool {
        self.frame.allows_start(setting)
            && !self.frame.rules_out(setting)
            && self.rests(self.couple(self.frame.initial, setting))
    }

    /// Check 4: every move is a state.
    pub fn check_states(&self) -> Result<(), Answer> {
        refuse_at(4, (0..self.couples()).find(|&couple| self.to(couple) >= self.frame.states))
    }

    /// Check 10: no couple moves to one that is not at rest.
    pub fn check_transients(&self) -> Result<(), Answer> {
        refuse_at(10, (0..self.couples()).find(|&couple| !self.rests(self.moved(couple))))
    }

    /// Check 13: some setting is a start.
    pub fn check_start(&self) -> Result<(), Answer> {
        refuse_at(13, (!(0..self.settings()).any(|setting| self.starts(setting))).then_some(0))
    }
}
