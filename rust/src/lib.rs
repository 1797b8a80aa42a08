//! The sheet maker from Rust: safe wrappers over the entry points of `include/mundrefol.h`.
//!
//! Beside them stands [`plain`], an implementation of the same jobs written from documents 01 and 02
//! alone, with the same signatures; the tests compare the two, answers and buffers, element by element.

mod entry;
pub mod examples;
pub mod file;
pub mod generate;
pub mod plain;

use plain::{Set, ENTRIES, OUTPUTS};

/// The answer of a table job: number 0 is success, any other a refusal.
#[repr(C)]
#[derive(Clone, Copy, Debug, Default, PartialEq, Eq)]
pub struct Answer {
    pub number: usize,
    pub place: usize,
}

/// What a table job is told beside the table: the numbers of inputs and states, the initial state,
/// the settings never used, and those at which a run may start.
#[repr(C)]
#[derive(Clone, Copy, Debug, Default, PartialEq, Eq)]
pub struct Frame {
    pub inputs: usize,
    pub states: usize,
    pub initial: usize,
    pub never: Set,
    pub starts: Set,
}

/// The answer of reading a file; the character with refusal 5 alone; outputs, evolutions and frame of
/// the file, all zero on refusal.
#[repr(C)]
#[derive(Clone, Copy, Debug, Default, PartialEq, Eq)]
pub struct Contents {
    pub answer: Answer,
    pub character: usize,
    pub outputs: usize,
    pub evolutions: usize,
    pub frame: Frame,
}

/// An evolution of the file: source and target state, place in the file and length of its condition.
#[repr(C)]
#[derive(Clone, Copy, Debug, Default, PartialEq, Eq)]
pub struct Evolution {
    pub source: u8,
    pub target: u8,
    pub at: u16,
    pub length: u8,
}

/// A reading, which the log keeps if it differs: run, change, whether it was the second after the
/// change, and the expected and the seen word.
#[repr(C)]
#[derive(Clone, Copy, Debug, Default, PartialEq, Eq)]
pub struct Entry {
    pub run: u16,
    pub change: u16,
    pub second: bool,
    pub expected: u16,
    pub seen: u16,
}

/// The bench log: readings, differing readings, entries kept, the first differences, and the readings in
/// which each output differed.
#[repr(C)]
#[derive(Clone, Copy, Debug, Default, PartialEq, Eq)]
pub struct Log {
    pub readings: u32,
    pub differing: u32,
    pub kept: u32,
    pub entries: [Entry; ENTRIES],
    pub outputs: [u32; OUTPUTS],
}

/// The answer of an update: kind 0 equal, 1 stored, 2 full, 3 refused.
#[repr(C)]
#[derive(Clone, Copy, Debug, PartialEq, Eq)]
pub struct Noted {
    pub number: usize,
    pub place: usize,
    pub kind: usize,
}

/// The layouts of the header.
const _: () = {
    assert!(size_of::<Answer>() == 2 * size_of::<usize>());
    assert!(size_of::<Frame>() == 3 * size_of::<usize>() + 64);
    assert!(size_of::<Contents>() == 5 * size_of::<usize>() + size_of::<Frame>());
    assert!(size_of::<Evolution>() == 6);
    assert!(size_of::<Entry>() == 10);
    assert!(size_of::<Log>() == 396);
    assert!(size_of::<Noted>() == 3 * size_of::<usize>());
};

// SAFETY of every call below: each pointer is a slice's own, so never null, whatever its length, and
// valid for the length beside it; the borrows keep what is written apart from all else.

/// Reads a specification file, SEQ1 or SEQ2, into a table, the states' output words and the evolutions'
/// records.
pub fn read(
    file: &[u8],
    table: &mut [u8],
    words: &mut [u16],
    records: &mut [Evolution],
) -> Contents {
    unsafe {
        entry::mundrefol_read(
            file.as_ptr(),
            file.len(),
            table.as_mut_ptr(),
            table.len(),
            words.as_mut_ptr(),
            words.len(),
            records.as_mut_ptr(),
            records.len(),
        )
    }
}

/// Whether the condition of an evolution of the records holds at a setting.
pub fn evolution_holds(
    records: &[Evolution],
    evolution: usize,
    file: &[u8],
    inputs: usize,
    setting: usize,
) -> bool {
    unsafe {
        entry::mundrefol_evolution_holds(
            records.as_ptr(),
            records.len(),
            evolution,
            file.as_ptr(),
            file.len(),
            inputs,
            setting,
        )
    }
}

/// Marks the couples that runs visit: their ranks, 65,535 for the others.
pub fn mark(frame: Frame, table: &[u8], ranks: &mut [u16]) -> Answer {
    unsafe {
        entry::mundrefol_mark(frame, table.as_ptr(), table.len(), ranks.as_mut_ptr(), ranks.len())
    }
}

/// Writes the run to a couple; the place is its number of settings.
pub fn run_to(
    frame: Frame,
    table: &[u8],
    ranks: &mut [u16],
    couple: usize,
    run: &mut [u8],
) -> Answer {
    unsafe {
        entry::mundrefol_run_to(
            frame,
            table.as_ptr(),
            table.len(),
            ranks.as_mut_ptr(),
            ranks.len(),
            couple,
            run.as_mut_ptr(),
            run.len(),
        )
    }
}

/// Writes the plan; the place is its number of bytes.
pub fn plan(frame: Frame, table: &[u8], ranks: &mut [u16], plan: &mut [u8]) -> Answer {
    unsafe {
        entry::mundrefol_plan(
            frame,
            table.as_ptr(),
            table.len(),
            ranks.as_mut_ptr(),
            ranks.len(),
            plan.as_mut_ptr(),
            plan.len(),
        )
    }
}

/// Writes the run to a couple, several inputs changing at once where they must; the place is its number
/// of settings.
pub fn multi_run_to(
    frame: Frame,
    table: &[u8],
    ranks: &mut [u16],
    couple: usize,
    run: &mut [u8],
) -> Answer {
    unsafe {
        entry::mundrefol_multi_run_to(
            frame,
            table.as_ptr(),
            table.len(),
            ranks.as_mut_ptr(),
            ranks.len(),
            couple,
            run.as_mut_ptr(),
            run.len(),
        )
    }
}

/// Writes the list of the runs to unmarked couples; the place is its number of bytes.
pub fn multi_list(frame: Frame, table: &[u8], ranks: &mut [u16], list: &mut [u8]) -> Answer {
    unsafe {
        entry::mundrefol_multi_list(
            frame,
            table.as_ptr(),
            table.len(),
            ranks.as_mut_ptr(),
            ranks.len(),
            list.as_mut_ptr(),
            list.len(),
        )
    }
}

/// Shortens a plan by the runs whose couples other runs visit; the place is the number of bytes left.
pub fn shorten(frame: Frame, table: &[u8], plan: &mut [u8]) -> Answer {
    unsafe {
        entry::mundrefol_shorten(frame, table.as_ptr(), table.len(), plan.as_mut_ptr(), plan.len())
    }
}

/// Writes the readings expected on a run; the place is their number.
pub fn expected(
    frame: Frame,
    table: &[u8],
    words: &[u16],
    run: &[u8],
    readings: &mut [u16],
) -> Answer {
    unsafe {
        entry::mundrefol_expected(
            frame,
            table.as_ptr(),
            table.len(),
            words.as_ptr(),
            words.len(),
            run.as_ptr(),
            run.len(),
            readings.as_mut_ptr(),
            readings.len(),
        )
    }
}

/// Writes the readings expected on a run that may change several inputs at once; the place is their
/// number.
pub fn multi_expected(
    frame: Frame,
    table: &[u8],
    words: &[u16],
    run: &[u8],
    readings: &mut [u16],
) -> Answer {
    unsafe {
        entry::mundrefol_multi_expected(
            frame,
            table.as_ptr(),
            table.len(),
            words.as_ptr(),
            words.len(),
            run.as_ptr(),
            run.len(),
            readings.as_mut_ptr(),
            readings.len(),
        )
    }
}

/// Notes one reading in the log.
pub fn update(log: &mut Log, reading: Entry) -> Noted {
    let Entry { run, change, second, expected, seen } = reading;
    // SAFETY: the log is one whole record, lent for the call.
    unsafe { entry::mundrefol_update(log, run, change, second, expected, seen) }
}
