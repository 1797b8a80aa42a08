//! Tables, runs and ranks, looked at step by step.

use super::followed::follow;
pub use super::followed::{is_used, readings, starts, visits};
use mundrefol::generate::Table;
use mundrefol::plain::{INPUTS, UNMARKED};

/// Whether every move is a state at rest at the same setting.
pub fn is_sound(table: &Table) -> bool {
    let settings = 1 << table.frame.inputs;
    (0..table.moves.len()).all(|couple| {
        let (state, setting) = (couple / settings, couple % settings);
        let to = follow(table, state, setting);
        to < table.frame.states && follow(table, to, setting) == to
    })
}

pub fn has_start(table: &Table) -> bool {
    !starts(table).is_empty()
}

/// Whether exactly one input of two settings differs.
pub fn differ_in_one(left: usize, right: usize) -> bool {
    (0..INPUTS).filter(|input| left >> input & 1 != right >> input & 1).count() == 1
}

/// Whether the settings are a run of the table.
pub fn is_run(table: &Table, run: &[usize]) -> bool {
    run.first().is_some_and(|start| starts(table).contains(start))
        && run.iter().all(|&setting| setting < 1 << table.frame.inputs && is_used(table, setting))
        && run.windows(2).all(|pair| differ_in_one(pair[0], pair[1]))
}

/// Ranks by plain rounds: each round looks at every couple and every change.
pub fn ranks_by_rounds(table: &Table) -> Vec<u16> {
    let settings = 1 << table.frame.inputs;
    let used: Vec<usize> = (0..settings).filter(|&setting| is_used(table, setting)).collect();
    let mut ranks = vec![UNMARKED; table.moves.len()];
    for start in starts(table) {
        ranks[table.frame.initial * settings + start] = 0;
    }
    for round in 0.. {
        let mut found = false;
        for couple in 0..table.moves.len() {
            let (state, setting) = (couple / settings, couple % settings);
            if ranks[couple] != round || follow(table, state, setting) != state {
                continue;
            }
            for &changed in used.iter().filter(|&&changed| differ_in_one(setting, changed)) {
                for visited in [state, follow(table, state, changed)] {
                    let rank = &mut ranks[visited * settings + changed];
                    found |= *rank == UNMARKED;
                    *rank = (*rank).min(round + 1);
                }
            }
        }
        if !found {
            break;
        }
    }
    ranks
}
