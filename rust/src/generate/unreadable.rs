//! Conditions that do not read: cut short, or with characters that cannot stand at their place.

use super::texts::{padded, random_condition};
use super::Random;
use crate::plain::{holds, PARENTHESES, TEXT};

/// Some text that does not read at that many inputs; now and then of the most bytes.
pub fn unreadable(random: &mut Random, inputs: usize) -> Vec<u8> {
    loop {
        let text = spoiled(random, inputs);
        if holds(&text, inputs, 0).is_none() {
            return text;
        }
    }
}

/// A condition up to some place, wrong characters there, and what stood behind or nothing.
fn spoiled(random: &mut Random, inputs: usize) -> Vec<u8> {
    let wrong = wrong(random, inputs);
    let mut whole = random_condition(random, inputs);
    if random.once_in(3) {
        whole = padded(whole, TEXT - wrong.len() + random.below(3));
    }
    let place = match random.below(4) {
        0 => 0,
        1 => whole.len() - random.below(2),
        _ => random.below(whole.len() + 1),
    };
    let (front, back) = whole.as_bytes().split_at(place);
    let back = if random.once_in(2) { b"" } else { back };
    let mut text = [front, &wrong, back].concat();
    text.truncate(TEXT);
    text
}

/// Characters that can stand nowhere, or not everywhere, or none.
fn wrong(random: &mut Random, inputs: usize) -> Vec<u8> {
    match random.below(9) {
        0 => Vec::new(),
        1 => vec![b'('; PARENTHESES + random.below(3)],
        2 => vec![b'a' + inputs as u8 + random.below(2) as u8],
        3 => vec![random.between(usize::from(b'i'), usize::from(b'z')) as u8],
        4 | 5 => vec![*random.pick(b"!)+.)01a")],
        6 => vec![b' '],
        7 => vec![random.below(usize::from(b' ')) as u8],
        _ => vec![random.bits() as u8],
    }
}
