//! One evolution asked out of the records that reading handed on.

use super::condition::holds;
use crate::Evolution;

/// Whether the condition of an evolution of the records holds at a setting. None does beyond the
/// records, nor one whose text is not within the file or does not read.
pub fn evolution_holds(
    records: &[Evolution],
    evolution: usize,
    file: &[u8],
    inputs: usize,
    setting: usize,
) -> bool {
    let text = records.get(evolution).and_then(|it| {
        let at = usize::from(it.at);
        file.get(at..at + usize::from(it.length))
    });
    text.and_then(|text| holds(text, inputs, setting)) == Some(true)
}
