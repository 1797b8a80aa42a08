//! Expected readings on a run.

use super::machine::Machine;
use super::runs::{first_fault, Altered, ONE, SEVERAL};
use super::{refuse_at, SETTINGS_OF_A_RUN};
use crate::{Answer, Frame};

/// Writing the readings expected on a run.
pub type Expected = fn(Frame, &[u8], &[u16], &[u8], &mut [u16]) -> Answer;

/// Writes the readings expected on a run; the place is their number.
pub fn expected(
    frame: Frame,
    table: &[u8],
    words: &[u16],
    run: &[u8],
    readings: &mut [u16],
) -> Answer {
    expected_of(ONE, frame, table, words, run, readings)
}

/// Writes the readings expected on a run that may change several inputs at once; the place is their
/// number.
pub fn multi_expected(
    frame: Frame,
    table: &[u8],
    words: &[u16],
    run: &[u8],
    readings: &mut [u16],
) -> Answer {
    expected_of(SEVERAL, frame, table, words, run, readings)
}

/// Writes the readings expected on a run whose changes alter so many inputs.
fn expected_of(
    altered: Altered,
    frame: Frame,
    table: &[u8],
    words: &[u16],
    run: &[u8],
    readings: &mut [u16],
) -> Answer {
    let lengths = (words.len(), readings.len());
    match checked(frame, table, lengths, run, altered) {
        Ok(machine) => Answer::done(write(&machine, words, run, readings)),
        Err(answer) => answer,
    }
}

/// Readings that a number of settings gives.
fn needed(settings: usize) -> usize {
    (2 * settings).saturating_sub(1)
}

/// Checks 2, 3, 4, 10 and 17; the lengths are those of words and readings.
fn checked<'a>(
    frame: Frame,
    table: &'a [u8],
    lengths: (usize, usize),
    run: &[u8],
    altered: Altered,
) -> Result<Machine<'a>, Answer> {
    let short_enough = run.len() <= SETTINGS_OF_A_RUN;
    let machine = Machine::new(frame, table, short_enough, |_| {
        vec![(lengths.0, frame.states), (lengths.1, needed(run.len()))]
    })?;
    machine.check_states()?;
    machine.check_transients()?;
    refuse_at(17, first_fault(&machine, run, altered))?;
    Ok(machine)
}

/// Writes the readings of a run and answers their number.
fn write(machine: &Machine, words: &[u16], run: &[u8], readings: &mut [u16]) -> usize {
    let mut state = machine.frame.initial;
    let mut pass = |setting: u8| {
        state = machine.to(machine.couple(state, usize::from(setting)));
        words[state]
    };
    readings[0] = pass(run[0]);
    for (pair, &setting) in readings[1..].chunks_exact_mut(2).zip(&run[1..]) {
        pair[0] = pass(setting);
        pair[1] = pass(setting);
    }
    needed(run.len())
}
