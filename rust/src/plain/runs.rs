//! Runs: their first fault, the couples they visit, and their stored form.

use super::machine::Machine;
use super::INPUTS;
use std::ops::RangeInclusive;

/// How many inputs a change of a run may alter.
pub type Altered = RangeInclusive<u32>;
/// Exactly one input.
pub const ONE: Altered = 1..=1;
/// At least one input.
pub const SEVERAL: Altered = 1..=INPUTS as u32;

/// Bytes before the settings of a stored run.
pub const LENGTH_BYTES: usize = 2;
/// Bytes before a stored run of the list.
pub const MULTIPLE_BYTES: usize = 2;

/// Check 17: the index of the first setting that keeps the settings from being a run.
pub fn first_fault(machine: &Machine, run: &[u8], altered: Altered) -> Option<usize> {
    if run.is_empty() {
        return Some(0);
    }
    (0..run.len()).find(|&index| {
        let setting = usize::from(run[index]);
        if setting >= machine.settings() || machine.frame.rules_out(setting) {
            return true;
        }
        match index.checked_sub(1) {
            None => !machine.starts(setting),
            Some(before) => !altered.contains(&(run[before] ^ run[index]).count_ones()),
        }
    })
}

/// The couples that a run visits, in its order; one may come several times, the start's comes twice.
pub fn visits<'a>(machine: &'a Machine, run: &'a [u8]) -> impl Iterator<Item = usize> + 'a {
    let mut state = machine.frame.initial;
    run.iter().flat_map(move |&setting| {
        let [changed, moved] = machine.visits(state, usize::from(setting));
        state = machine.state(moved);
        [changed, moved]
    })
}

/// The settings of the first stored run, and the bytes behind it; nothing if it is cut.
pub fn split_first(stored: &[u8]) -> Option<(&[u8], &[u8])> {
    let (&length, rest) = stored.split_first_chunk::<LENGTH_BYTES>()?;
    rest.split_at_checked(usize::from(u16::from_le_bytes(length)))
}

/// The multiple changes and the settings of the first run of a list, and the bytes behind it; nothing
/// if it is cut.
pub fn split_multi(list: &[u8]) -> Option<(usize, &[u8], &[u8])> {
    let (&multiple, stored) = list.split_first_chunk::<MULTIPLE_BYTES>()?;
    let (settings, after) = split_first(stored)?;
    Some((u16::from_le_bytes(multiple).into(), settings, after))
}
