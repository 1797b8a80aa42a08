//! What the jobs are lent: lengths around the needed ones, junk, tables, runs.

use mundrefol::generate::{any_table, spoil_run, Random, Table, Walk};
use mundrefol::plain::{COUPLES, INPUTS, STATES};
use mundrefol::Evolution;

/// A buffer's length around the needed one: mostly enough, sometimes short by one or more.
pub fn length(random: &mut Random, needed: usize) -> usize {
    match random.below(24) {
        0 => random.below(needed + 1),
        1 => needed.saturating_sub(1),
        2..=11 => needed,
        _ => needed + random.between(1, 40),
    }
}

/// Bytes that no job would write there by chance.
pub fn junk_bytes(random: &mut Random, length: usize) -> Vec<u8> {
    (0..length).map(|_| random.bits() as u8).collect()
}

/// Words that no job would write there by chance.
pub fn junk_words(random: &mut Random, length: usize) -> Vec<u16> {
    (0..length).map(|_| random.bits() as u16).collect()
}

/// Records that no job would write there by chance.
pub fn junk_records(random: &mut Random, length: usize) -> Vec<Evolution> {
    let record = |_| Evolution {
        source: random.bits() as u8,
        target: random.bits() as u8,
        at: random.bits() as u16,
        length: random.bits() as u8,
    };
    (0..length).map(record).collect()
}

/// Some table as it is lent.
pub fn lent_table(random: &mut Random) -> Table {
    let table = any_table(random);
    as_lent(random, table)
}

/// A table as it is lent: the frame now and then out of range, the bytes longer or shorter.
pub fn as_lent(random: &mut Random, mut table: Table) -> Table {
    let length = length(random, table.moves.len());
    let beyond = junk_bytes(random, length);
    let kept = length.min(table.moves.len());
    table.moves.truncate(kept);
    table.moves.extend_from_slice(&beyond[kept..]);
    let odd = *random.pick(&[0, INPUTS + 1, STATES + 1, 64, usize::MAX, 1 << 32, 1 << 63]);
    match random.below(60) {
        0 => table.frame.inputs = odd,
        1 => table.frame.states = odd,
        2 => table.frame.initial = table.frame.states,
        3 => table.frame.initial = usize::MAX,
        _ => {}
    }
    table
}

/// Couples of a lent table, or the most there are where its frame is out of range.
pub fn couples(table: &Table) -> usize {
    let in_range = table.frame.inputs <= INPUTS && table.frame.states <= STATES;
    if in_range {
        table.frame.couples()
    } else {
        COUPLES
    }
}

/// Junk for the ranks of a lent table.
pub fn lent_ranks(random: &mut Random, table: &Table) -> Vec<u16> {
    let length = length(random, couples(table));
    junk_words(random, length)
}

/// Settings that mostly are a run of the table, sometimes with a fault, rarely very many.
pub fn lent_run(random: &mut Random, table: &Table, walk: Walk) -> Vec<u8> {
    let careless = random.once_in(5);
    let count = match random.below(400) {
        0 => random.between(65_534, 65_537),
        1..=20 => 0,
        _ => random.between(1, 60),
    };
    let mut run = walk(random, table, count, careless);
    if random.once_in(4) {
        spoil_run(random, table, &mut run);
    }
    run
}
