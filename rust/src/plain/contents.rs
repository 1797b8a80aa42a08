//! The contents of a specification file: check 1, and where each body stands.

use super::FILE;
use std::ops::Range;

/// The mark of a file whose states have rest conditions.
pub const SEQ1: [u8; 4] = *b"SEQ1";
/// The mark of a file whose states have none: a state rests where none of its evolutions holds.
pub const SEQ2: [u8; 4] = *b"SEQ2";

const ENTRY_BYTES: usize = 5;
const SIZES_BYTES: usize = 4;

/// Kinds of bodies; each of the last two may be missing.
const SIZES: u8 = 1;
const STATES: u8 = 2;
const EVOLUTIONS: u8 = 3;
const TEXTS: u8 = 4;
const NEVER: u8 = 5;
const STARTS: u8 = 6;

/// Bytes of a record of a state or an evolution.
pub const RECORD_BYTES: usize = 3;

/// Whether the states of a file have rest conditions, and where its bodies stand.
pub struct Bodies {
    pub rests: bool,
    pub sizes: Range<usize>,
    pub states: Range<usize>,
    pub evolutions: Range<usize>,
    pub texts: Range<usize>,
    pub never: Option<Range<usize>>,
    pub starts: Option<Range<usize>>,
}

impl Bodies {
    /// Check 1: the bodies, or nothing if the contents are wrong.
    pub fn of(file: &[u8]) -> Option<Bodies> {
        if file.len() > FILE {
            return None;
        }
        let (&mark, after) = file.split_first_chunk()?;
        let (&count, entries) = after.split_first()?;
        let entries = entries.get(..ENTRY_BYTES * usize::from(count))?;
        let first = mark.len() + 1 + entries.len();
        let kinds: Vec<u8> = entries.chunks_exact(ENTRY_BYTES).map(|entry| entry[0]).collect();
        let places = end_to_end(entries, first, file.len())?;
        if !kinds_fit(&kinds) || ![SEQ1, SEQ2].contains(&mark) {
            return None;
        }
        let place = |kind| Some(places[kinds.iter().position(|&it| it == kind)?].clone());
        let bodies = Bodies {
            rests: mark == SEQ1,
            sizes: place(SIZES)?,
            states: place(STATES)?,
            evolutions: place(EVOLUTIONS)?,
            texts: place(TEXTS)?,
            never: place(NEVER),
            starts: place(STARTS),
        };
        bodies.lengths_fit().then_some(bodies)
    }

    /// The conditions that may be missing, in the order of their records.
    pub fn optional(&self) -> impl Iterator<Item = &Range<usize>> {
        self.never.iter().chain(&self.starts)
    }

    fn lengths_fit(&self) -> bool {
        self.sizes.len() == SIZES_BYTES
            && self.states.len().is_multiple_of(RECORD_BYTES)
            && self.evolutions.len().is_multiple_of(RECORD_BYTES)
    }
}

/// Whether the kinds rise, are known, and those that are always there are among them.
fn kinds_fit(kinds: &[u8]) -> bool {
    kinds.windows(2).all(|pair| pair[0] < pair[1])
        && kinds.iter().all(|kind| (SIZES..=STARTS).contains(kind))
        && (SIZES..=TEXTS).all(|kind| kinds.contains(&kind))
}

/// The place of each entry's body, if they stand end to end from the first to the last byte.
fn end_to_end(entries: &[u8], first: usize, last: usize) -> Option<Vec<Range<usize>>> {
    let mut end = first;
    let mut places = Vec::new();
    for entry in entries.chunks_exact(ENTRY_BYTES) {
        let [offset, length] = [1, 3].map(|at| u16::from_le_bytes([entry[at], entry[at + 1]]));
        if usize::from(offset) != end {
            return None;
        }
        let start = end;
        end += usize::from(length);
        places.push(start..end);
    }
    (end == last).then_some(places)
}
