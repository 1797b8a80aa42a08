//! Damaged files: faults of the description, of the bytes, and files at and beyond the limits.

use super::contents::{first_body, other_bodies, recount, shift_entry, wrap_contents};
use super::files::{largest_file, largest_without_rests, random_file, settled_file};
use super::sets::spoil_optional;
use super::texts::{nested, random_condition};
use super::unreadable::unreadable;
use super::Random;
use crate::file::{with_contents, File, Leaving, State};
use crate::plain::{FILE, INPUTS, OUTPUTS, SEQ1, SEQ2, STATES, TEXT};

/// A form of files: its mark, the largest of so many bytes, and any other file brought into it.
struct Form {
    mark: [u8; 4],
    largest: fn(usize) -> File,
    of: fn(&mut Random, File) -> File,
}

const WITH_RESTS: Form = Form { mark: SEQ1, largest: largest_file, of: |_, file| file };
const WITHOUT_RESTS: Form = Form { mark: SEQ2, largest: largest_without_rests, of: without_rests };

/// The file as SEQ2, now and then with a rest condition.
fn without_rests(random: &mut Random, file: File) -> File {
    let mut file = file.without_rests();
    if random.once_in(16) && !file.states.is_empty() {
        let record = random.below(file.states.len());
        replace_text(random, &mut file, record);
    }
    file
}

/// Faults of the description, each of a kind that some check is there for.
fn spoil(random: &mut Random, file: &mut File) {
    let states = file.states.len();
    let state = random.below(states);
    let record = random.below(file.conditions_mut().count());
    match random.below(16) {
        0 => file.states[state].word ^= 1 << random.below(OUTPUTS),
        1 => file.states[state].word = file.states[random.below(states)].word,
        2 => spoil_text(random, file, record),
        3 => wrap_text(random, file, record),
        4 => replace_text(random, file, record),
        5 => file.initial = random.below(states + 1) as u8,
        6 => file.outputs = random.below(OUTPUTS + 2) as u8,
        7 => file.inputs = random.below(INPUTS + 2) as u8,
        8 => drop_state_or_evolution(random, file),
        9 => add_lonely_state(file),
        10 => no_start(file),
        11..=13 => spoil_optional(random, file),
        _ => spoil_evolution(random, file),
    }
}

/// Changes, inserts or takes out one character.
fn spoil_text(random: &mut Random, file: &mut File, record: usize) {
    let text = file.condition_mut(record);
    let sign = char::from(*random.pick(b"abcdefghi01!().+ A\n,"));
    let at = random.below(text.len() + 1);
    match random.below(3) {
        0 if at < text.len() => text.replace_range(at..at + 1, &sign.to_string()),
        1 if at < text.len() => text.replace_range(at..at + 1, ""),
        _ if text.len() < TEXT => text.insert(at, sign),
        _ => text.clear(),
    }
}

/// Puts the text into up to ten parentheses, or cuts it off.
fn wrap_text(random: &mut Random, file: &mut File, record: usize) {
    let text = file.condition_mut(record);
    let parentheses = random.between(0, 10);
    if random.once_in(5) {
        text.truncate(random.below(text.len() + 1));
    } else if text.len() + 2 * parentheses <= TEXT {
        *text = nested(text, parentheses);
    }
}

fn replace_text(random: &mut Random, file: &mut File, record: usize) {
    let inputs = usize::from(file.inputs).max(1);
    *file.condition_mut(record) = match random.below(5) {
        0 => "0".to_string(),
        1 => "1".to_string(),
        2 => "!".repeat(random.below(20)) + "a",
        _ => random_condition(random, inputs),
    };
}

fn drop_state_or_evolution(random: &mut Random, file: &mut File) {
    if !file.evolutions.is_empty() && !random.once_in(6) {
        file.evolutions.remove(random.below(file.evolutions.len()));
    } else {
        file.states.remove(random.below(file.states.len()));
    }
}

/// Adds a state that rests everywhere and that nothing moves to.
fn add_lonely_state(file: &mut File) {
    let word = (0..=u16::MAX).find(|word| !file.states.iter().any(|state| state.word == *word));
    file.states.push(State { word: word.unwrap_or(0), rest: "1".to_string() });
}

/// Adds an initial state that moves to the old one and rests nowhere; nothing moves to it.
fn no_start(file: &mut File) {
    let old = file.initial;
    let Some(rest) = file.states.get(usize::from(old)).map(|state| state.rest.clone()) else {
        return;
    };
    let first = file.states.len() as u8;
    add_lonely_state(file);
    file.states[usize::from(first)].rest = "0".to_string();
    file.initial = first;
    file.evolutions.push(Leaving { source: first, target: old, condition: rest });
    let as_old: Vec<Leaving> =
        file.evolutions.iter().filter(|it| it.source == old).cloned().collect();
    file.evolutions.extend(as_old.into_iter().map(|it| Leaving { source: first, ..it }));
}

fn spoil_evolution(random: &mut Random, file: &mut File) {
    if file.evolutions.is_empty() {
        return;
    }
    let index = random.below(file.evolutions.len());
    let other = file.evolutions[random.below(file.evolutions.len())].clone();
    let states = file.states.len();
    let it = &mut file.evolutions[index];
    match random.below(6) {
        0 => it.source = random.below(states + 1) as u8,
        1 => it.target = random.below(states + 1) as u8,
        2 => it.target = it.source,
        3 => (it.source, it.target) = (other.source, other.target),
        4 => it.condition = other.condition,
        _ => file.evolutions.push(other),
    }
}

/// Faults of the bytes: contents, sizes, lengths, the end.
fn spoil_bytes(random: &mut Random, bytes: &mut Vec<u8>) {
    let (length, contents) = (bytes.len(), first_body(bytes));
    match random.below(13) {
        0 | 1 => bytes[random.below(contents)] ^= 1 << random.below(8),
        2 => bytes[random.below(contents)] = random.bits() as u8,
        3 => bytes.truncate(random.below(length)),
        4 => bytes.extend((0..random.between(1, 4)).map(|_| b'a')),
        5 => shift_entry(random, bytes),
        6 => swap_lengths(random, bytes),
        7 => bytes[contents + random.below(4)] = random.below(40) as u8,
        8 if random.once_in(2) => wrap_contents(bytes),
        8 => bytes.truncate(length - 1),
        9 => bytes.truncate(contents),
        10 => recount(random, bytes),
        _ => bytes[random.below(length)] ^= 1 << random.below(8),
    }
}

/// Moves a byte of text from one record to the next, so that the sum stays.
fn swap_lengths(random: &mut Random, bytes: &mut [u8]) {
    let first = first_body(bytes) + 6;
    if bytes.len() < first + 4 {
        return;
    }
    let at = first + 3 * random.below((bytes.len() - first - 1) / 3);
    if at + 3 < bytes.len() {
        bytes[at] = bytes[at].wrapping_add(1);
        bytes[at + 3] = bytes[at + 3].wrapping_sub(1);
    }
}

/// A file with up to two faults, or of an extreme size.
pub fn damaged(random: &mut Random) -> Vec<u8> {
    damaged_as(random, &WITH_RESTS)
}

/// The same of files without rest conditions, in which a state now and then has one all the same.
pub fn damaged_without_rests(random: &mut Random) -> Vec<u8> {
    damaged_as(random, &WITHOUT_RESTS)
}

fn damaged_as(random: &mut Random, form: &Form) -> Vec<u8> {
    if random.once_in(150) {
        return extreme(random, form);
    }
    let mut file = if random.once_in(5) { random_file(random) } else { settled_file(random) };
    let mut of_bytes = false;
    for _ in 0..random.between(1, 2) {
        if random.once_in(3) || file.states.is_empty() {
            of_bytes = true;
        } else {
            spoil(random, &mut file);
        }
    }
    let file = (form.of)(random, file);
    if of_bytes && random.once_in(4) {
        return with_contents(file.mark, &other_bodies(random, &file));
    }
    let mut bytes = if random.once_in(8) { with_unreadable(random, file) } else { file.bytes() };
    if of_bytes {
        spoil_bytes(random, &mut bytes);
    }
    bytes
}

/// The file with a condition that does not read.
fn with_unreadable(random: &mut Random, mut file: File) -> Vec<u8> {
    let records = file.conditions_mut().count();
    if records == 0 {
        return file.bytes();
    }
    let text = unreadable(random, usize::from(file.inputs).clamp(1, INPUTS));
    file.bytes_with(random.below(records), &text)
}

/// Files at and beyond the limits: sizes, evolutions, texts.
fn extreme(random: &mut Random, form: &Form) -> Vec<u8> {
    match random.below(8) {
        0 => (form.largest)(FILE).bytes(),
        1 => (form.largest)(FILE + random.between(1, 2)).bytes(),
        2 => vec![b'S'; random.between(24, 26)],
        3 => too_many_evolutions(random, form),
        4 => (form.of)(random, too_many_states()).bytes(),
        5 => {
            let mut bytes = (form.largest)(random.between(61_000, FILE)).bytes();
            spoil_bytes(random, &mut bytes);
            bytes
        }
        6 => {
            let mut file = (form.largest)(random.between(61_000, FILE));
            spoil(random, &mut file);
            file.bytes()
        }
        _ => [&form.mark[..], &[4], &vec![0; random.between(65_000, 70_000)]].concat(),
    }
}

/// The most evolutions and one or two more.
fn too_many_evolutions(random: &mut Random, form: &Form) -> Vec<u8> {
    let mut file = (form.largest)(61_000);
    for _ in 0..random.between(1, 2) {
        file.evolutions.push(Leaving { source: 0, target: 1, condition: "0".to_string() });
    }
    file.bytes()
}

/// One state too many, without a fault otherwise.
fn too_many_states() -> File {
    let state = |word| State { word, rest: "1".to_string() };
    let states = (0..=STATES as u16).map(state).collect();
    File { states, ..File::new(1, 16, &[], &[]) }
}
