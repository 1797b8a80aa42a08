//! Sets of settings, one bit a setting.

use super::{WORDS, WORD_BITS};

/// A set: setting v is a member if bit v % 64 of word v / 64 is 1.
pub type Set = [u64; WORDS];

/// No setting.
pub const NO_SETTING: Set = [0; WORDS];
/// Every setting.
pub const EVERY_SETTING: Set = [u64::MAX; WORDS];
/// Setting 0 alone: power-up, with all contacts open.
pub const POWER_UP: Set = {
    let mut set = NO_SETTING;
    set[0] = 1;
    set
};

/// The set of the settings that are said to be in it.
pub fn set_of(mut member: impl FnMut(usize) -> bool) -> Set {
    let mut set = NO_SETTING;
    for setting in 0..WORDS * WORD_BITS {
        set[setting / WORD_BITS] |= u64::from(member(setting)) << (setting % WORD_BITS);
    }
    set
}

/// Whether a setting is a member.
pub fn is_member(set: &Set, setting: usize) -> bool {
    set[setting / WORD_BITS] >> (setting % WORD_BITS) & 1 == 1
}
