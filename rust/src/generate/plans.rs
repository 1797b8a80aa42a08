//! Runs and plans for a table: document 01's, walks, runs again and in other orders; and damaged ones.

use super::tables::Table;
use super::Random;
use crate::plain::{self, INPUTS, SETTINGS_OF_A_RUN};

/// The stored form of runs, end to end.
pub fn stored(runs: &[Vec<u8>]) -> Vec<u8> {
    let form = |run: &Vec<u8>| [&(run.len() as u16).to_le_bytes()[..], run].concat();
    runs.iter().flat_map(form).collect()
}

/// The runs of a plan that splits into them.
pub fn runs_of(mut plan: &[u8]) -> Vec<Vec<u8>> {
    let mut runs = Vec::new();
    while let [low, high, after @ ..] = plan {
        let (run, unread) = after.split_at(usize::from(u16::from_le_bytes([*low, *high])));
        runs.push(run.to_vec());
        plan = unread;
    }
    runs
}

/// Document 01's plan of a table, by the independent implementation; none if the table is refused.
pub fn plan_of(table: &Table) -> Vec<u8> {
    let mut ranks = vec![0; table.moves.len()];
    let needed = plain::plan(table.frame, &table.moves, &mut ranks, &mut []);
    let mut plan = vec![0; if needed.number == 16 { needed.place } else { 0 }];
    plain::plan(table.frame, &table.moves, &mut ranks, &mut plan);
    plan
}

/// The inputs of a table whose frame may be out of range.
fn inputs(table: &Table) -> usize {
    table.frame.inputs.clamp(1, INPUTS)
}

/// The settings at which the initial state of any table rests.
fn resting(table: &Table) -> impl Iterator<Item = usize> + '_ {
    let (settings, initial) = (1usize << inputs(table), table.frame.initial);
    (0..settings).filter(move |&setting| {
        let couple = initial.wrapping_mul(settings).wrapping_add(setting);
        table.moves.get(couple).is_some_and(|&state| usize::from(state) == initial)
    })
}

/// A walk of so many settings, careless or not.
pub type Walk = fn(&mut Random, &Table, usize, bool) -> Vec<u8>;

/// So many settings from a start, or from any setting if there is none, each changing one input;
/// fewer if none can be changed. A careless walk uses settings that are ruled out, and starts at any at
/// which the initial state rests.
pub fn walk(random: &mut Random, table: &Table, count: usize, careless: bool) -> Vec<u8> {
    walk_by(random, table, count, careless, |_, inputs, from| {
        (0..inputs).map(|input| from ^ 1 << input).collect()
    })
}

/// As a walk, but about every other change is to any other setting.
pub fn multi_walk(random: &mut Random, table: &Table, count: usize, careless: bool) -> Vec<u8> {
    walk_by(random, table, count, careless, |random, inputs, from| {
        let most = if random.once_in(2) { inputs as u32 } else { 1 };
        (0..1 << inputs).filter(|to| (1..=most).contains(&(from ^ to).count_ones())).collect()
    })
}

/// A walk whose next settings are among those that `changes` gives for the inputs and the last one.
fn walk_by(
    random: &mut Random,
    table: &Table,
    count: usize,
    careless: bool,
    changes: impl Fn(&mut Random, usize, usize) -> Vec<usize>,
) -> Vec<u8> {
    let inputs = inputs(table);
    let used = |&setting: &usize| careless || !table.frame.rules_out(setting);
    let any = random.below(1 << inputs);
    let allowed = |&setting: &usize| careless || table.frame.allows_start(setting);
    let mut next: Vec<usize> = resting(table).filter(used).filter(allowed).collect();
    if next.is_empty() {
        next.push(any);
    }
    let mut run = Vec::with_capacity(count);
    while run.len() < count && !next.is_empty() {
        let setting = *random.pick(&next);
        run.push(setting as u8);
        next = changes(random, inputs, setting);
        next.retain(used);
    }
    run
}

/// Changes one setting of a run, one of the first, or leaves its beginning out.
pub fn spoil_run(random: &mut Random, table: &Table, run: &mut Vec<u8>) {
    if run.is_empty() {
        return;
    }
    let inputs = inputs(table);
    let at = random.below(run.len().min(80));
    match random.below(6) {
        0 => run[at] = random.bits() as u8,
        1 => run[at] ^= (1usize << inputs) as u8,
        2 => run[at] = run[at.saturating_sub(1)],
        3 => run[at] ^= 1 << random.below(inputs),
        4 => drop(run.drain(..at)),
        _ => run[0] = random.below(1 << inputs) as u8,
    }
}

/// Walks: mostly few, rarely some thousand, or one with the most settings.
fn walks(random: &mut Random, table: &Table) -> Vec<Vec<u8>> {
    let (count, most) = match random.below(300) {
        0 => (random.between(2_000, 20_000), 6),
        1 => return vec![walk(random, table, SETTINGS_OF_A_RUN, false)],
        _ => (random.between(1, 12), 40),
    };
    let one = |_| {
        let settings = random.between(1, most);
        walk(random, table, settings, false)
    };
    (0..count).map(one).collect()
}

/// Runs of a table with a start: of document 01's plan, walks, or both; some again, some only begun,
/// in any order.
pub fn any_runs(random: &mut Random, table: &Table) -> Vec<Vec<u8>> {
    let mut runs = if random.once_in(3) { Vec::new() } else { runs_of(&plan_of(table)) };
    if runs.is_empty() || random.once_in(3) {
        runs.extend(walks(random, table));
    }
    if random.once_in(3) {
        runs.extend_from_within(random.below(runs.len())..);
    }
    if random.once_in(4) {
        runs.iter_mut().for_each(|run| run.truncate(random.between(1, run.len())));
    }
    if random.once_in(2) {
        random.shuffle(&mut runs);
    }
    runs
}

/// Some plan for a table: its runs, half of the time with faults; rarely none, or any bytes.
pub fn any_plan(random: &mut Random, table: &Table) -> Vec<u8> {
    let most = *random.pick(&[2, 3, 255]);
    match random.below(24) {
        0 => Vec::new(),
        1 => (0..random.between(1, 30)).map(|_| random.between(0, most) as u8).collect(),
        2..=12 => stored(&any_runs(random, table)),
        _ => spoiled_plan(random, table),
    }
}

/// A plan with faults of its runs, of its bytes, or both.
fn spoiled_plan(random: &mut Random, table: &Table) -> Vec<u8> {
    let mut runs = any_runs(random, table);
    let of_bytes = random.once_in(3);
    if !of_bytes || random.once_in(3) {
        spoil_runs(random, table, &mut runs);
    }
    let mut plan = stored(&runs);
    if of_bytes {
        spoil_bytes(random, &mut plan);
    }
    plan
}

/// Spoils one run, or puts in one of no settings, or a careless one.
fn spoil_runs(random: &mut Random, table: &Table, runs: &mut Vec<Vec<u8>>) {
    let at = random.below(runs.len());
    let settings = random.between(1, 20);
    match random.below(5) {
        0 => runs.insert(at, Vec::new()),
        1 | 2 => runs.insert(at, walk(random, table, settings, true)),
        _ => spoil_run(random, table, &mut runs[at]),
    }
}

/// Cuts a plan anywhere or before its end, lengthens it, or changes a byte.
fn spoil_bytes(random: &mut Random, plan: &mut Vec<u8>) {
    let length = plan.len();
    match random.below(4) {
        0 => plan.truncate(random.below(length)),
        1 => plan.truncate(length - random.between(1, length.min(4))),
        2 => plan.extend((0..random.between(1, 3)).map(|_| random.below(3) as u8)),
        _ => plan[random.below(length)] ^= 1 << random.below(8),
    }
}
