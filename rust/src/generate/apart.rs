//! Tables with couples that single changes do not reach, and the one on which multiple changes are most work.

use super::sets::{any_set, any_starts};
use super::tables::{any_table, sizes, Table};
use super::Random;
use crate::plain::{is_member, set_of, Set, EVERY_SETTING, INPUTS, STATES};
use crate::Frame;

/// Some table for runs that may change several inputs: any, any with inputs that must change together,
/// or a chain of states.
pub fn any_apart(random: &mut Random) -> Table {
    match random.below(6) {
        0 | 1 => any_table(random),
        2 => {
            let Table { frame, moves } = any_table(random);
            let never = uneven(random, 1 << frame.inputs);
            Table { frame: Frame { never, ..frame }, moves }
        }
        _ => chain(random),
    }
}

/// The settings with an odd number of some inputs on: where they are ruled out, none of these changes alone.
fn uneven(random: &mut Random, settings: usize) -> Set {
    let inputs = random.between(1, settings - 1);
    set_of(|setting| (setting & inputs).count_ones() % 2 == 1)
}

/// A chain of states, in any order of their numbers, that each rest at few settings and lead on at those
/// of the next one; one input from its rest a state falls to the last state, which is seldom left.
fn chain(random: &mut Random) -> Table {
    let (inputs, states) = if random.once_in(4) {
        sizes(random)
    } else {
        (random.between(3, 5), random.between(3, 9))
    };
    let settings = 1 << inputs;
    let resting: Vec<Set> = (0..states).map(|_| few(random, settings)).collect();
    let mut order: Vec<usize> = (0..states).collect();
    random.shuffle(&mut order);
    let mut moves = vec![0; states * settings];
    for (at, &state) in order.iter().enumerate() {
        for setting in 0..settings {
            let to = order[next_in(&resting, at, setting, inputs)];
            moves[state * settings + setting] = to as u8;
        }
    }
    release(random, &mut moves, order[states - 1], settings);
    let never = any_set(random, settings);
    let starts = if random.once_in(2) { EVERY_SETTING } else { any_starts(random, settings) };
    let initial = if random.once_in(8) { random.below(states) } else { order[0] };
    Table { frame: Frame { inputs, states, initial, never, starts }, moves }
}

/// One to four settings, or about half of them.
fn few(random: &mut Random, settings: usize) -> Set {
    let chosen: Vec<usize> = (0..random.between(1, 4)).map(|_| random.below(settings)).collect();
    let many = random.once_in(6);
    set_of(|setting| setting < settings && (chosen.contains(&setting) || many && random.once_in(2)))
}

/// The place in the chain that follows at a setting.
fn next_in(resting: &[Set], at: usize, setting: usize, inputs: usize) -> usize {
    let last = resting.len() - 1;
    let rests = |at: usize, setting| at == last || is_member(&resting[at], setting);
    let near = (0..inputs).any(|input| rests(at, setting ^ 1 << input));
    match at {
        _ if rests(at, setting) => at,
        _ if !near && rests(at + 1, setting) => at + 1,
        _ => last,
    }
}

/// Lets a state that rests everywhere leave, at some settings at which no other moves to it.
fn release(random: &mut Random, moves: &mut [u8], state: usize, settings: usize) {
    for setting in 0..settings {
        let column = moves.iter().skip(setting).step_by(settings);
        let others: Vec<u8> = column.copied().filter(|&to| usize::from(to) != state).collect();
        if others.len() + 1 == moves.len() / settings && !others.is_empty() && random.once_in(3) {
            moves[state * settings + setting] = *random.pick(&others);
        }
    }
}

/// The table of 8 inputs and 32 states on which multiple changes are most work: each state rests at every
/// setting but one, at which it leads on to the next state; the last of these settings is all inputs on,
/// which the settings ruled out keep from single changes, and the couples at those are never visited, so
/// that the search does not end before every multiple change is made.
pub fn widest_table() -> Table {
    let settings = 1 << INPUTS;
    let all_on = settings - 1;
    let leaves = |state: usize| if state + 2 == STATES { all_on } else { state + 1 };
    let to = |couple: usize| {
        let state = couple / settings;
        let leads_on = state + 1 < STATES && couple % settings == leaves(state);
        (state + usize::from(leads_on)) as u8
    };
    let never = set_of(|setting| setting < settings && (setting ^ all_on).is_power_of_two());
    let starts = EVERY_SETTING;
    let frame = Frame { inputs: INPUTS, states: STATES, initial: 0, never, starts };
    Table { frame, moves: (0..STATES * settings).map(to).collect() }
}
