//! The jobs of documents 01 and 02 in plain Rust, written from the documents alone.
//!
//! Each function has the signature of the library's wrapper of the same name and leaves the same in
//! every lent buffer, after refusals too.

mod character;
mod condition;
mod contents;
mod evolution;
mod least;
mod log;
mod machine;
mod marking;
mod multi;
mod plan;
pub mod queue;
mod readings;
mod rests;
mod runs;
mod sets;
mod sheet;
mod shorten;
mod specification;

pub use condition::holds;
pub use contents::{SEQ1, SEQ2};
pub use evolution::evolution_holds;
pub use log::{outputs_of, update};
pub use marking::mark;
pub use multi::{multi_list, multi_run_to};
pub use plan::{plan, run_to, RunTo};
pub use readings::{expected, multi_expected, Expected};
pub use rests::{with_rests, Unfit};
pub use sets::{is_member, set_of, Set, EVERY_SETTING, NO_SETTING, POWER_UP};
pub use sheet::{lines, sheet, Jobs, Read, Write};
pub use shorten::shorten;
pub use specification::read;

use crate::Answer;

/// Most inputs.
pub const INPUTS: usize = 8;
/// Most outputs.
pub const OUTPUTS: usize = 16;
/// Most states.
pub const STATES: usize = 32;
/// Most evolutions.
pub const EVOLUTIONS: usize = 992;
/// Most couples.
pub const COUPLES: usize = STATES << INPUTS;
/// Most bytes of a file.
pub const FILE: usize = 65_535;
/// Most parentheses open at any place of a condition.
pub const PARENTHESES: usize = 8;
/// Longest condition.
pub const TEXT: usize = 255;
/// Words of a set of settings, one bit a setting.
pub const WORDS: usize = (1 << INPUTS) / WORD_BITS;
/// Bits of a word of a set.
pub const WORD_BITS: usize = u64::BITS as usize;
/// Most settings of a run handed in.
pub const SETTINGS_OF_A_RUN: usize = 65_535;
/// Most entries that the log keeps.
pub const ENTRIES: usize = 32;
/// Bytes of the sheet program's plan buffer.
pub const PLAN: usize = 65_536;
/// Bytes of the sheet program's list buffer.
pub const LIST: usize = 65_536;

/// What a needed table byte holds after a refusal.
pub const NO_MOVE: u8 = 255;
/// What a needed word holds after a refusal.
pub const NO_WORD: u16 = 65_535;
/// The rank of an unmarked couple.
pub const UNMARKED: u16 = 65_535;

impl Answer {
    /// Success, with what was written as the place.
    pub const fn done(place: usize) -> Answer {
        Answer { number: 0, place }
    }

    /// A refusal by number and place.
    pub const fn refused(number: usize, place: usize) -> Answer {
        Answer { number, place }
    }
}

/// Refuses by `number` if there is a place at which it fails.
fn refuse_at(number: usize, place: Option<usize>) -> Result<(), Answer> {
    match place {
        Some(place) => Err(Answer::refused(number, place)),
        None => Ok(()),
    }
}

/// Refusal 3: of (length, needed) pairs, the needed elements of the first buffer that is too short.
fn check_lengths(buffers: &[(usize, usize)]) -> Result<(), Answer> {
    let short = buffers.iter().find(|(length, needed)| length < needed);
    refuse_at(3, short.map(|&(_, needed)| needed))
}
