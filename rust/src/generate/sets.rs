//! Settings never used and allowed starts: as conditions of a file, and as the sets of a frame.

use super::texts::{dressed, nested, padded, random_condition, Product};
use super::Random;
use crate::file::File;
use crate::plain::{set_of, Set, PARENTHESES, TEXT};

/// The set of some settings, with or without members at and beyond `settings`.
fn with_beyond(
    random: &mut Random,
    settings: usize,
    mut member: impl FnMut(&mut Random, usize) -> bool,
) -> Set {
    let beyond = *random.pick(&[0, 0, 8, 16]);
    let in_set = |setting| {
        if setting < settings {
            member(random, setting)
        } else {
            random.below(16) < beyond
        }
    };
    set_of(in_set)
}

/// Any set: empty, full, few settings or many.
pub fn any_set(random: &mut Random, settings: usize) -> Set {
    let sixteenths = random.between(1, 15);
    let few = [0; 3].map(|_| random.below(settings));
    let kind = random.below(10);
    with_beyond(random, settings, |random, setting| match kind {
        0..=3 => false,
        4 => true,
        5..=7 => few.contains(&setting),
        _ => random.below(16) < sixteenths,
    })
}

/// Any allowed starts: mostly all settings or all but few; or setting 0 alone, or another.
pub fn any_starts(random: &mut Random, settings: usize) -> Set {
    let one = if random.once_in(2) { 0 } else { random.below(settings) };
    if random.once_in(4) {
        with_beyond(random, settings, |_, setting| setting == one)
    } else {
        any_set(random, settings).map(|word| !word)
    }
}

/// Some settings of a number of inputs, as a product.
fn product(random: &mut Random, inputs: usize) -> Product {
    let [named, on] = [0; 2].map(|_| random.below(1 << inputs));
    let named = if random.once_in(3) { (1 << inputs) - 1 } else { named.max(1) };
    Product { named, on: on & named }
}

/// A condition that holds at every start: that of the allowed starts, or the initial state's rest.
fn at_every_start(random: &mut Random, file: &File) -> String {
    let initial = file.states.get(usize::from(file.initial));
    let rest = initial.map_or("1".to_string(), |state| state.rest.clone());
    let allowed = file.starts.clone().filter(|_| random.once_in(2));
    allowed.unwrap_or(rest)
}

/// A condition that reads: it holds nowhere, everywhere, at every start, or mostly at some settings.
pub fn settings_text(random: &mut Random, file: &File) -> String {
    let inputs = usize::from(file.inputs);
    let text = match random.below(24) {
        0 | 1 => "0".to_string(),
        2 => "1".to_string(),
        3 => at_every_start(random, file),
        4..=6 => random_condition(random, inputs),
        _ => {
            let products: Vec<_> =
                (0..random.between(1, 3)).map(|_| product(random, inputs)).collect();
            dressed(&products, random)
        }
    };
    if random.once_in(8) {
        padded(text, TEXT)
    } else {
        text
    }
}

/// Gives a file kind 6 or none, mostly `1`, and kind 5 or none.
pub fn add_optional(random: &mut Random, file: &mut File) {
    file.starts = match random.below(4) {
        0 => None,
        1 | 2 => Some("1".to_string()),
        _ => Some(settings_text(random, file)),
    };
    if random.once_in(2) {
        file.never = Some(settings_text(random, file));
    }
}

/// Gives a file a condition of kind 5 or 6 that does not read, is too long or leaves no start, or takes
/// kind 6 away.
pub fn spoil_optional(random: &mut Random, file: &mut File) {
    let of_starts = random.once_in(2);
    let old = if of_starts { &file.starts } else { &file.never };
    let text = old.clone().unwrap_or_else(|| "a".to_string());
    let spoiled = match random.below(9) {
        0 => Some(String::new()),
        1 => Some(padded("!a".to_string(), TEXT + 1)),
        2 => Some(padded(text, random.between(TEXT, 3 * TEXT))),
        3 => Some(nested(&text, PARENTHESES + random.below(2))),
        4 => Some(char::from(b'a' + file.inputs).to_string()),
        5 => Some(format!("{text}{}", random.pick(&["+", ".", "a", " ", ")", "\n"]))),
        6 => Some("(".to_string() + &text),
        7 if of_starts => Some("0".to_string()),
        7 => Some("1".to_string()),
        _ if of_starts => None,
        _ => Some(at_every_start(random, file)),
    };
    *(if of_starts { &mut file.starts } else { &mut file.never }) = spoiled;
}
