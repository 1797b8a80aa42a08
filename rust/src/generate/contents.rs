//! Wrong contents: other kinds, counts, offsets and lengths.

use super::Random;
use crate::file::File;

/// Where the first body of a file begins.
pub fn first_body(bytes: &[u8]) -> usize {
    5 + 5 * usize::from(bytes[4])
}

fn add(bytes: &mut [u8], at: usize, more: u16) {
    let sum = u16::from_le_bytes([bytes[at], bytes[at + 1]]).wrapping_add(more);
    bytes[at..at + 2].copy_from_slice(&sum.to_le_bytes());
}

/// The bodies of a file with one too many, one missing, two swapped, or one of another kind.
pub fn other_bodies(random: &mut Random, file: &File) -> Vec<(u8, Vec<u8>)> {
    let mut bodies = file.bodies();
    let at = random.below(bodies.len());
    match random.below(7) {
        0 => bodies[at].0 = random.below(9) as u8,
        1 => drop(bodies.remove(at)),
        2 => bodies.swap(at, 0),
        3 => bodies.swap(at, at.saturating_sub(1)),
        4 => bodies.insert(at, bodies[at].clone()),
        5 => bodies.insert(0, (0, Vec::new())),
        _ => bodies.push((random.between(4, 9) as u8, b"a".to_vec())),
    }
    bodies
}

/// Gives the file another count, or the offsets of another count, or both.
pub fn recount(random: &mut Random, bytes: &mut [u8]) {
    let (count, which) = (bytes[4], random.below(3));
    if which != 0 {
        bytes[4] = random.below(9) as u8;
    }
    if which != 1 {
        let moved = *random.pick(&[5, 10, 5u16.wrapping_neg()]);
        (0..usize::from(count)).for_each(|entry| add(bytes, 6 + 5 * entry, moved));
    }
}

/// Makes one length of the contents larger or smaller by little, or also what follows it.
pub fn shift_entry(random: &mut Random, bytes: &mut [u8]) {
    let entry = 5 + 5 * random.below(usize::from(bytes[4]));
    let step = *random.pick(&[1, 3, 1u16.wrapping_neg(), 3u16.wrapping_neg()]);
    add(bytes, entry + 3, step);
    if random.once_in(2) && entry + 5 < first_body(bytes) {
        add(bytes, entry + 6, step);
        if random.once_in(2) {
            add(bytes, entry + 8, step.wrapping_neg());
        }
    }
}

/// Gives kind 2 so many bytes that the offsets after it only fit modulo 65,536.
pub fn wrap_contents(bytes: &mut [u8]) {
    let (states, length) = (first_body(bytes) + 4, 65_535);
    let number = |bytes: &mut [u8], at: usize, value: usize| {
        bytes[at..at + 2].copy_from_slice(&(value as u16).to_le_bytes());
    };
    number(bytes, 13, length);
    for entry in (15..first_body(bytes)).step_by(5) {
        number(bytes, entry + 1, states + length);
        number(bytes, entry + 3, 0);
    }
    let last = first_body(bytes) - 2;
    number(bytes, last, bytes.len() + 1 - states);
}
