//! Specification files: sound ones, random ones, and the largest.

use super::sets::add_optional;
use super::tables::{sizes, Regions};
use super::texts::{dressed, nested, random_condition, sum_of_products, Product};
use super::Random;
use crate::file::{File, Leaving, State};
use crate::plain::{EVOLUTIONS, INPUTS, OUTPUTS, SEQ1, SEQ2, STATES, TEXT};

/// Different words in a random order, or now and then any words.
fn words(random: &mut Random, states: usize, outputs: usize) -> Vec<u16> {
    if random.once_in(16) {
        return (0..states).map(|_| random.below(1 << outputs) as u16).collect();
    }
    let turn = random.below(1 << outputs);
    let mut words: Vec<u16> = (0..states).map(|state| (state ^ turn) as u16).collect();
    random.shuffle(&mut words);
    words
}

/// Fewest outputs that give that many states different words.
fn fewest_outputs(states: usize) -> usize {
    (1..=OUTPUTS).find(|outputs| 1 << outputs >= states).expect("there are outputs enough")
}

/// The file of a table given by regions, each condition through `text`.
pub fn file_of_regions(
    regions: &Regions,
    words: &[u16],
    outputs: usize,
    initial: usize,
    mut text: impl FnMut(&[Product]) -> String,
) -> File {
    let mut states = Vec::new();
    let mut evolutions = Vec::new();
    for (source, &word) in words.iter().enumerate() {
        states.push(State { word, rest: text(&regions.products(source, source)) });
        for target in (0..regions.states).filter(|&target| target != source) {
            let products = regions.products(source, target);
            if !products.is_empty() {
                let condition = text(&products);
                evolutions.push(Leaving { source: source as u8, target: target as u8, condition });
            }
        }
    }
    let bare = File::new(regions.inputs as u8, outputs as u8, &[], &[]);
    File { initial: initial as u8, states, evolutions, ..bare }
}

/// Regions in which every state is reached, if a few attempts find them.
fn reached_regions(random: &mut Random, initial: usize, inputs: usize, states: usize) -> Regions {
    let mut regions = Regions { inputs, states, parts: Vec::new() };
    for _ in 0..30 {
        let most = random.between(1, 10.max(states / 2));
        regions = Regions::random(random, inputs, states, most);
        if regions.reaches_all(initial) || random.once_in(40) {
            break;
        }
    }
    regions
}

/// A file whose rules settle: exactly one holds at each couple, and no couple is transient. It may
/// have words that agree, states that are never reached, or no start; rarely it has a transient. Half
/// of the files rule settings out, most say where a run may start.
pub fn settled_file(random: &mut Random) -> File {
    let (inputs, states) = sizes(random);
    let initial = random.below(states);
    let mut regions = reached_regions(random, initial, inputs, states);
    if random.once_in(30) {
        regions.unsettle(random);
    }
    let outputs = random.between(fewest_outputs(states), OUTPUTS);
    let words = words(random, states, outputs);
    let plain = random.once_in(4);
    let mut file = file_of_regions(&regions, &words, outputs, initial, |products| {
        if plain {
            sum_of_products(products)
        } else {
            dressed(products, random)
        }
    });
    if random.once_in(3) {
        random.shuffle(&mut file.evolutions);
    }
    if random.once_in(6) {
        add_idle_evolution(random, &mut file);
    }
    add_optional(random, &mut file);
    file
}

/// Adds an evolution that never holds, if there are states without one between them.
fn add_idle_evolution(random: &mut Random, file: &mut File) {
    let (source, target) = (random.below(file.states.len()), random.below(file.states.len()));
    let same = |it: &Leaving| usize::from(it.source) == source && usize::from(it.target) == target;
    if source != target && !file.evolutions.iter().any(same) {
        let condition = random.pick(&["0", "a.!a", "!1", "!(a+!a)", "0.a+0"]).to_string();
        file.evolutions.push(Leaving { source: source as u8, target: target as u8, condition });
    }
}

/// A small file of random conditions.
pub fn random_file(random: &mut Random) -> File {
    let (inputs, states) = (random.between(1, 3), random.between(1, 3));
    let outputs = random.between(2, 4);
    let words = words(random, states, outputs);
    let state = |random: &mut Random, word| State { word, rest: random_condition(random, inputs) };
    let states: Vec<State> = words.iter().map(|&word| state(random, word)).collect();
    let leaving = |random: &mut Random| Leaving {
        source: random.below(states.len()) as u8,
        target: random.below(states.len()) as u8,
        condition: random_condition(random, inputs),
    };
    let evolutions = (0..random.below(5)).map(|_| leaving(random)).collect();
    let [never, starts] =
        [0; 2].map(|_| random.once_in(3).then(|| random_condition(random, inputs)));
    let bare = File::new(inputs as u8, outputs as u8, &[], &[]);
    File { states, evolutions, never, starts, ..bare }
}

/// Any bytes, now and then after a right beginning.
pub fn random_bytes(random: &mut Random) -> Vec<u8> {
    let length = random.between(0, 80);
    let mut bytes: Vec<u8> = (0..length).map(|_| random.bits() as u8).collect();
    if random.once_in(2) && bytes.len() >= 5 {
        bytes[..4].copy_from_slice(&random.pick(&[SEQ1, SEQ2])[..]);
        bytes[4] = random.between(3, 7) as u8;
    }
    bytes
}

/// The conditions of a file, which are all but the empty texts of states without them.
fn conditions(file: &mut File) -> impl Iterator<Item = &mut String> {
    file.conditions_mut().filter(|text| !text.is_empty())
}

/// Lengthens conditions without changing what they say, until the file has that many bytes.
fn pad(file: &mut File, bytes: usize) {
    let mut missing = bytes.saturating_sub(file.bytes().len());
    for text in conditions(file) {
        while missing >= 2 && text.len() + 3 <= TEXT {
            let more = if missing == 3 { "+!1" } else { "+0" };
            text.push_str(more);
            missing -= more.len();
        }
    }
    assert!(missing < 2, "{missing} bytes do not fit");
}

/// Bytes that kind 6 `1` adds to a file: its entry and its text.
const STARTS_BYTES: usize = 6;

/// A sound file of 8 inputs, 32 states and 992 evolutions with that many bytes: at each setting one
/// state rests, and every other moves to it; kind 6 is `1`.
pub fn largest_file(bytes: usize) -> File {
    largest(bytes, |file| file)
}

/// The same without rest conditions.
pub fn largest_without_rests(bytes: usize) -> File {
    largest(bytes, File::without_rests)
}

fn largest(bytes: usize, form: fn(File) -> File) -> File {
    let part = |state: usize| (Product { named: STATES - 1, on: state }, vec![state as u8; STATES]);
    let regions =
        Regions { inputs: INPUTS, states: STATES, parts: (0..STATES).map(part).collect() };
    let words: Vec<u16> = (0..STATES as u16).collect();
    let fine = |product: &Product| {
        let split = |high: usize| Product {
            named: product.named | 0b1110_0000,
            on: product.on | high << 5,
        };
        (0..8).map(split).collect::<Vec<_>>()
    };
    let mut count = 0;
    let file = file_of_regions(&regions, &words, OUTPUTS, 0, |products| {
        count += 1;
        if count % 8 == 0 {
            sum_of_products(&fine(&products[0]))
        } else {
            nested(&sum_of_products(products), count % 9)
        }
    });
    assert_eq!(file.evolutions.len(), EVOLUTIONS);
    let mut file = form(file);
    spread_padding(&mut file, bytes - STARTS_BYTES);
    file.starts("1")
}

/// Pads every condition about evenly, then the first ones up to the whole size.
fn spread_padding(file: &mut File, bytes: usize) {
    let missing = bytes.saturating_sub(file.bytes().len());
    let records = conditions(file).count();
    for text in conditions(file) {
        let share = (missing / records / 2).min((TEXT - text.len()) / 2);
        text.push_str(&"+0".repeat(share));
    }
    pad(file, bytes);
}
