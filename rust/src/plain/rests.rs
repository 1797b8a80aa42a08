//! The SEQ1 file of a SEQ2 file: each rest condition is the negated sum of the conditions of the state's
//! evolutions.

use super::contents::{RECORD_BYTES, SEQ1};
use super::specification::Layout;
use super::{FILE, PARENTHESES, TEXT};

/// Why there is no SEQ1 file.
#[derive(Clone, Copy, Debug, PartialEq, Eq, PartialOrd, Ord)]
pub enum Unfit {
    /// It is no SEQ2 file, or refused by 1 or 2.
    Contents,
    /// A rest condition would be too long.
    Text,
    /// A rest condition would open too many parentheses.
    Parentheses,
    /// The file would be too long.
    File,
}

/// The SEQ1 file of a SEQ2 file: all but the rest conditions is as it was.
pub fn with_rests(file: &[u8]) -> Result<Vec<u8>, Unfit> {
    let layout = Layout::of(file, (usize::MAX, usize::MAX, usize::MAX));
    let layout = layout.ok().filter(|layout| !layout.bodies.rests).ok_or(Unfit::Contents)?;
    let bodies = &layout.bodies;
    let (mut with, mut rests) = (file.to_vec(), Vec::new());
    for state in 0..layout.frame.states {
        let rest = negated_sum(&leaving(file, &layout, state));
        if rest.len() > TEXT {
            return Err(Unfit::Text);
        }
        if most_open(&rest) > PARENTHESES {
            return Err(Unfit::Parentheses);
        }
        with[bodies.states.start + RECORD_BYTES * state + 2] = rest.len() as u8;
        rests.extend(rest);
    }
    if file.len() + rests.len() > FILE {
        return Err(Unfit::File);
    }
    with[..SEQ1.len()].copy_from_slice(&SEQ1);
    // The length of kind 4, and the offsets of the kinds behind it.
    for at in [23, 26, 31].into_iter().filter(|&at| at < bodies.sizes.start) {
        let moved = u16::from_le_bytes([with[at], with[at + 1]]) + rests.len() as u16;
        with[at..at + 2].copy_from_slice(&moved.to_le_bytes());
    }
    let texts = bodies.texts.start;
    with.splice(texts..texts, rests);
    Ok(with)
}

/// The conditions of the evolutions of a state.
fn leaving<'a>(file: &'a [u8], layout: &Layout, state: usize) -> Vec<&'a [u8]> {
    let evolutions = layout.frame.states..layout.records();
    let own = evolutions.filter(|&record| usize::from(layout.record(record)[0]) == state);
    let texts = layout.text_places();
    own.map(|record| &file[texts[record].clone()]).collect()
}

/// Holds where none of the conditions does.
fn negated_sum(conditions: &[&[u8]]) -> Vec<u8> {
    if conditions.is_empty() {
        return b"1".to_vec();
    }
    [b"!(", &conditions.join(&b'+')[..], b")"].concat()
}

/// Most parentheses open at any place of a text.
fn most_open(text: &[u8]) -> usize {
    let mut open = 0usize;
    let after = |sign: &u8| {
        match sign {
            b'(' => open += 1,
            b')' => open = open.saturating_sub(1),
            _ => {}
        }
        open
    };
    text.iter().map(after).max().unwrap_or(0)
}
