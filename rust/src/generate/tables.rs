//! Tables of moves: settled ones, arbitrary ones, and the one with the longest runs.

use super::sets::{any_set, any_starts};
use super::texts::Product;
use super::Random;
use crate::plain::{EVERY_SETTING, INPUTS, STATES};
use crate::Frame;

/// A table with its frame.
#[derive(Clone, Debug)]
pub struct Table {
    pub frame: Frame,
    pub moves: Vec<u8>,
}

/// Inputs and states, mostly few of them.
pub fn sizes(random: &mut Random) -> (usize, usize) {
    match random.below(40) {
        0 => (INPUTS, STATES),
        1..=3 => (random.between(1, INPUTS), random.between(1, STATES)),
        4..=11 => (random.between(1, 5), random.between(1, 10)),
        _ => (random.between(1, 4), random.between(1, 5)),
    }
}

/// A move for each state, such that every state moved to rests; about one in `spread` states rests.
fn settled_moves(random: &mut Random, states: usize, spread: usize) -> Vec<u8> {
    let mut resting: Vec<usize> = (0..states).filter(|_| random.once_in(spread)).collect();
    if resting.is_empty() {
        resting.push(random.below(states));
    }
    let chosen = |state: usize| {
        if resting.contains(&state) {
            state as u8
        } else {
            *random.pick(&resting) as u8
        }
    };
    (0..states).map(chosen).collect()
}

/// Settings parted into products, each with a settled move for each state.
#[derive(Clone, Debug)]
pub struct Regions {
    pub inputs: usize,
    pub states: usize,
    pub parts: Vec<(Product, Vec<u8>)>,
}

impl Regions {
    /// At most `most` regions of random shape.
    pub fn random(random: &mut Random, inputs: usize, states: usize, most: usize) -> Regions {
        let mut products = vec![Product { named: 0, on: 0 }];
        while products.len() < most {
            let at = random.below(products.len());
            let split = 1 << random.below(inputs);
            let Product { named, on } = products[at];
            if named & split == 0 {
                products[at].named |= split;
                products.push(Product { named: named | split, on: on | split });
            } else if random.once_in(8) {
                break;
            }
        }
        let spread = random.between(1, 4);
        let part = |product| (product, settled_moves(random, states, spread));
        Regions { inputs, states, parts: products.into_iter().map(part).collect() }
    }

    /// Gives one state in one region any move at all.
    pub fn unsettle(&mut self, random: &mut Random) {
        let region = random.below(self.parts.len());
        self.parts[region].1[random.below(self.states)] = random.below(self.states) as u8;
    }

    /// Whether every state is reached from the initial one.
    pub fn reaches_all(&self, initial: usize) -> bool {
        let mut reached = vec![initial];
        let mut next = 0;
        while let Some(&state) = reached.get(next) {
            for (_, moves) in &self.parts {
                let target = usize::from(moves[state]);
                if !reached.contains(&target) {
                    reached.push(target);
                }
            }
            next += 1;
        }
        reached.len() == self.states
    }

    /// The products at which a state moves to another, or to itself.
    pub fn products(&self, state: usize, target: usize) -> Vec<Product> {
        let moves = |part: &&(Product, Vec<u8>)| usize::from(part.1[state]) == target;
        self.parts.iter().filter(moves).map(|part| part.0).collect()
    }

    /// The table of the regions.
    pub fn moves(&self) -> Vec<u8> {
        let settings = 1 << self.inputs;
        let mut moves = vec![0; self.states * settings];
        for (couple, place) in moves.iter_mut().enumerate() {
            let (state, setting) = (couple / settings, couple % settings);
            let part = self.parts.iter().find(|part| part.0.holds(setting));
            *place = part.expect("the regions cover every setting").1[state];
        }
        moves
    }
}

/// Moves that settle, each setting by itself.
fn settled_table(random: &mut Random, inputs: usize, states: usize) -> Vec<u8> {
    let settings = 1 << inputs;
    let spread = random.between(1, 5);
    let mut moves = vec![0; states * settings];
    for setting in 0..settings {
        let chosen = settled_moves(random, states, spread);
        for (state, &target) in chosen.iter().enumerate() {
            moves[state * settings + setting] = target;
        }
    }
    moves
}

/// Moves of a walk that steps from state to state, back to a resting state 0 at each wrong turn.
fn winding_table(random: &mut Random, inputs: usize, states: usize) -> Vec<u8> {
    let settings = 1usize << inputs;
    let mut moves = vec![0; states * settings];
    let mut setting = random.below(settings);
    for state in 1..states {
        moves[(state - 1) * settings + setting] = state as u8;
        for _ in 0..random.between(1, settings) {
            moves[state * settings + setting] = state as u8;
            setting ^= 1 << random.below(inputs);
        }
    }
    settle(&mut moves, settings);
    moves
}

/// Leads each move on until it rests, or makes it rest where it would go round.
fn settle(moves: &mut [u8], settings: usize) {
    for couple in 0..moves.len() {
        let setting = couple % settings;
        let next = |state: u8| usize::from(state) * settings + setting;
        let mut state = moves[couple];
        for _ in 0..STATES {
            state = moves[next(state)];
        }
        moves[next(state)] = state;
        moves[couple] = state;
    }
}

/// Lets no other state move to this one, so that it matters more where runs start: those that did rest.
fn leave_for_good(moves: &mut [u8], state: usize, settings: usize) {
    for (couple, to) in moves.iter_mut().enumerate() {
        if usize::from(*to) == state {
            *to = (couple / settings) as u8;
        }
    }
}

/// Some table: mostly sound, some with transients, some with states beyond the last; any settings
/// may be ruled out, and any may be allowed starts.
pub fn any_table(random: &mut Random) -> Table {
    let (inputs, states) = sizes(random);
    let mut moves = match random.below(8) {
        0 => (0..states << inputs).map(|_| random.below(states) as u8).collect(),
        1 | 2 => winding_table(random, inputs, states),
        3 | 4 => {
            let most = random.between(1, 16);
            Regions::random(random, inputs, states, most).moves()
        }
        _ => settled_table(random, inputs, states),
    };
    let (initial, settings, couples) = (random.below(states), 1 << inputs, moves.len());
    if random.once_in(3) {
        leave_for_good(&mut moves, initial, settings);
    }
    match random.below(12) {
        0 => moves[random.below(couples)] = random.between(states, 255) as u8,
        1 => moves[random.below(couples)] = random.below(states) as u8,
        2 => *moves.last_mut().expect("a table has couples") = states as u8,
        _ => {}
    }
    let (never, starts) = (any_set(random, settings), any_starts(random, settings));
    Table { frame: Frame { inputs, states, initial, never, starts }, moves }
}

/// Inputs changed one after the other along a path of settings of 8 inputs no two of which differ in
/// one input unless they follow each other.
const SNAKE: &[u8] =
    b"0123024321035430126521032056430134623410351023107601320153014302462350135231453201532603523012";

/// The table of 8 inputs and 32 states with the longest runs we know. State 0 rests everywhere but at
/// setting 0; each other state rests along a path of its own, hands on to the next state at the
/// path's end, and falls back at every other setting. Every setting is an allowed start.
pub fn longest_table() -> Table {
    let settings = 1 << INPUTS;
    let mut moves = vec![0; STATES * settings];
    for state in 1..STATES {
        moves[state * settings] = 1;
    }
    moves[0] = 1;
    let mut setting = 0;
    for state in 1..STATES {
        moves[state * settings + setting] = state as u8;
        for change in SNAKE {
            setting ^= 1 << (change - b'0');
            moves[state * settings + setting] = state as u8;
        }
        if state + 1 < STATES {
            moves[state * settings + setting] = state as u8 + 1;
        }
    }
    let starts = EVERY_SETTING;
    Table { frame: Frame { inputs: INPUTS, states: STATES, starts, ..Frame::default() }, moves }
}
