//! Logs of the bench, and the readings noted in them.

use super::Random;
use crate::plain::{outputs_of, ENTRIES, OUTPUTS};
use crate::{Entry, Log};

/// Counts around those at which something else is asked of a log, or nothing more is noted.
const LIMITS: [u32; 9] = [0, 1, 31, 32, 33, 40, 1 << 31, u32::MAX - 1, u32::MAX];

/// How seldom each part of a log is spoiled.
const SPOILED: usize = 8;

/// A reading whose words are equal about every other time, and else differ in one output or in any.
pub fn any_reading(random: &mut Random) -> Entry {
    let (run, change, expected) = (any_word(random), any_word(random), any_word(random));
    let seen = match random.below(4) {
        0 => any_word(random),
        1 => expected ^ 1 << random.below(OUTPUTS),
        _ => expected,
    };
    Entry { run, change, second: random.once_in(2), expected, seen }
}

fn any_word(random: &mut Random) -> u16 {
    random.bits() as u16
}

/// A log, sound about every other time; what stands beyond the kept entries is junk.
pub fn any_log(random: &mut Random) -> Log {
    let differing = if random.once_in(2) { *random.pick(&LIMITS) } else { random.below(50) as u32 };
    let readings = any_readings(random, differing);
    let kept = any_kept(random, differing);
    let mut log = Log { readings, differing, kept, ..Log::default() };
    log.entries = log.entries.map(|_| any_reading(random));
    let entries = &mut log.entries[..ENTRIES.min(kept as usize)];
    make_differ(random, entries);
    log.outputs = if differing as usize <= ENTRIES {
        outputs_of(entries)
    } else {
        any_outputs(random, differing)
    };
    if random.once_in(SPOILED) {
        spoil_outputs(random, &mut log);
    }
    log
}

fn any_readings(random: &mut Random, differing: u32) -> u32 {
    match random.below(2 * SPOILED) {
        0 => *random.pick(&LIMITS),
        1 => differing.saturating_sub(1),
        2 => u32::MAX,
        _ => differing.saturating_add(random.below(5) as u32).min(u32::MAX - 1),
    }
}

fn any_kept(random: &mut Random, differing: u32) -> u32 {
    let right = differing.min(ENTRIES as u32);
    match random.below(4 * SPOILED) {
        0 => *random.pick(&LIMITS),
        1 => differing,
        2 => right + 1,
        3 => right.saturating_sub(1),
        _ => right,
    }
}

/// Makes the words of every entry differ, or of all but one.
fn make_differ(random: &mut Random, entries: &mut [Entry]) {
    for entry in entries.iter_mut().filter(|entry| entry.expected == entry.seen) {
        entry.seen ^= 1 << random.below(OUTPUTS);
    }
    if !entries.is_empty() && random.once_in(SPOILED) {
        let entry = &mut entries[random.below(entries.len())];
        entry.seen = entry.expected;
    }
}

/// Counts of at most `differing`, of which two together are just that.
fn any_outputs(random: &mut Random, differing: u32) -> [u32; OUTPUTS] {
    let most = *random.pick(&[0, 3, differing]);
    let mut outputs = [0; OUTPUTS].map(|_: u32| random.between(0, most as usize) as u32);
    let one = random.below(OUTPUTS);
    let other = (one + random.between(1, OUTPUTS - 1)) % OUTPUTS;
    outputs[one] = match random.below(4) {
        0 => differing,
        _ => random.between(0, differing as usize) as u32,
    };
    outputs[other] = differing - outputs[one];
    outputs
}

/// Changes the largest count, or any.
fn spoil_outputs(random: &mut Random, log: &mut Log) {
    let largest = (0..OUTPUTS).max_by_key(|&output| log.outputs[output]).expect("some output");
    let any = random.below(OUTPUTS);
    match random.below(4) {
        0 => log.outputs[any] = log.differing.saturating_add(1),
        1 => log.outputs[any] = log.outputs[any].saturating_add(1),
        2 => log.outputs.swap(largest, any),
        _ => log.outputs[largest] = log.outputs[largest].saturating_sub(1),
    }
}
