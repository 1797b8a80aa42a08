//! The bench log.

use super::{ENTRIES, OUTPUTS};
use crate::{Entry, Log, Noted};

const EQUAL: usize = 0;
const STORED: usize = 1;
const FULL: usize = 2;
const REFUSED: usize = 3;

/// Notes one reading in the log.
pub fn update(log: &mut Log, reading: Entry) -> Noted {
    if !is_sound(log) || log.readings == u32::MAX {
        return Noted { number: 18, place: 0, kind: REFUSED };
    }
    log.readings += 1;
    let kind = if reading.expected == reading.seen { EQUAL } else { differ(log, reading) };
    Noted { number: 0, place: 0, kind }
}

/// In how many of the readings each output differed.
pub fn outputs_of(readings: &[Entry]) -> [u32; OUTPUTS] {
    let mut outputs = [0; OUTPUTS];
    readings.iter().for_each(|reading| count(&mut outputs, reading));
    outputs
}

/// Counts each output in which the words of a reading differ.
fn count(outputs: &mut [u32; OUTPUTS], reading: &Entry) {
    let differing = reading.expected ^ reading.seen;
    for (output, count) in outputs.iter_mut().enumerate() {
        *count += u32::from(differing >> output & 1);
    }
}

/// Whether kept, differing and readings agree, and the kept entries and the outputs' counts fit them.
fn is_sound(log: &Log) -> bool {
    log.kept == log.differing.min(ENTRIES as u32)
        && log.differing <= log.readings
        && fits(log, &log.entries[..log.kept as usize])
}

/// Whether the kept entries are differences, and the outputs' counts fit them and the differing readings.
fn fits(log: &Log, kept: &[Entry]) -> bool {
    let sum: u64 = log.outputs.iter().map(|&count| u64::from(count)).sum();
    let all_kept = log.differing <= ENTRIES as u32;
    kept.iter().all(|entry| entry.expected != entry.seen)
        && log.outputs.iter().all(|&count| count <= log.differing)
        && sum >= u64::from(log.differing)
        && (!all_kept || log.outputs == outputs_of(kept))
}

/// Counts a differing reading and its outputs, and keeps its entry if there is room.
fn differ(log: &mut Log, reading: Entry) -> usize {
    log.differing += 1;
    count(&mut log.outputs, &reading);
    match log.entries.get_mut(log.kept as usize) {
        Some(place) => {
            *place = reading;
            log.kept += 1;
            STORED
        }
        None => FULL,
    }
}
