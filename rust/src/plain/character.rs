//! Which character of a condition does not read, found by trying what may stand behind each beginning.

use super::condition::holds;
use super::PARENTHESES;

/// The smallest number of leading characters that cannot be continued to a condition that reads; the
/// length plus one if the text only stops too early, zero if it reads.
pub fn character(text: &[u8], inputs: usize) -> usize {
    if holds(text, inputs, 0).is_some() {
        return 0;
    }
    let stuck = (1..=text.len()).find(|&count| !continues(&text[..count], inputs));
    stuck.unwrap_or(text.len() + 1)
}

/// Whether some text behind this one makes it read: if any does, then a factor or none, and as many
/// closed parentheses as are open.
fn continues(text: &[u8], inputs: usize) -> bool {
    let closed = [b')'; PARENTHESES];
    let reads =
        |factor: &[u8], open| holds(&[text, factor, &closed[..open]].concat(), inputs, 0).is_some();
    (0..=PARENTHESES).any(|open| reads(b"", open) || reads(b"0", open))
}

#[cfg(test)]
mod tests {
    use super::super::{INPUTS, TEXT};
    use super::{character, holds};
    use crate::generate::all_texts;
    use std::collections::BTreeSet;

    /// Signs, letters within and beyond the inputs, and a character of no condition.
    const ALPHABET: &[u8] = b"!().+01ab ";
    const LONGEST: usize = 6;

    fn texts_up_to(longest: usize) -> impl Iterator<Item = Vec<u8>> {
        (0..=longest).flat_map(|length| all_texts(ALPHABET, length))
    }

    /// The beginnings of every text up to the longest that reads.
    fn begun(inputs: usize) -> BTreeSet<Vec<u8>> {
        let reading = texts_up_to(LONGEST).filter(|text| holds(text, inputs, 0).is_some());
        reading.flat_map(|text| (0..=text.len()).map(move |end| text[..end].to_vec())).collect()
    }

    /// Every text that leaves room for a factor and a closed parenthesis for each one that it opens.
    #[test]
    fn as_by_every_continuation() {
        for inputs in 0..=2 {
            let begun = begun(inputs);
            let right = |text: &[u8]| {
                let stuck = (1..=text.len()).find(|&count| !begun.contains(&text[..count]));
                let reads = holds(text, inputs, 0).is_some();
                stuck.unwrap_or(if reads { 0 } else { text.len() + 1 })
            };
            let opened = |text: &[u8]| text.iter().filter(|&&sign| sign == b'(').count();
            let short = |text: &Vec<u8>| text.len() + 1 + opened(text) <= LONGEST;
            for text in texts_up_to(LONGEST - 1).filter(short) {
                let named = String::from_utf8_lossy(&text);
                assert_eq!(character(&text, inputs), right(&text), "{named} of {inputs}");
            }
        }
    }

    #[test]
    fn at_the_limits() {
        let open = |count: usize| "(".repeat(count);
        for (text, right) in [
            (open(8), 9),
            (open(9), 9),
            (open(8) + "!(a", 10),
            (open(8) + "a)+(", 13),
            (open(8) + "a)+((", 13),
            ("!".repeat(TEXT), TEXT + 1),
            ("!".repeat(TEXT + 1), TEXT + 2),
            ("a+".repeat(TEXT / 2) + "i", TEXT),
        ] {
            assert_eq!(character(text.as_bytes(), INPUTS), right, "{text}");
        }
    }
}
