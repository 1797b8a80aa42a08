//! Seeded inputs for the tests and the benchmarks: tables, conditions, files, plans,
//! lists and logs.

mod apart;
mod contents;
mod damage;
mod files;
mod lists;
mod logs;
mod plans;
mod sets;
mod tables;
mod texts;
mod unreadable;

pub use apart::{any_apart, widest_table};
pub use damage::{damaged, damaged_without_rests};
pub use files::{file_of_regions, largest_file, largest_without_rests};
pub use files::{random_bytes, random_file, settled_file};
pub use lists::{list_of, multi_runs_of, multiple_changes};
pub use logs::{any_log, any_reading};
pub use plans::{any_plan, any_runs, multi_walk, plan_of, runs_of, spoil_run, stored, walk, Walk};
pub use tables::{any_table, longest_table, sizes, Regions, Table};
pub use texts::{all_texts, dressed, nested, padded, random_condition, sum_of_products, Product};
pub use unreadable::unreadable;

/// Every list of `length` numbers below `limit`.
pub fn all_lists(limit: usize, length: usize) -> impl Iterator<Item = Vec<u8>> {
    (0..limit.pow(length as u32)).map(move |mut code| {
        let digit = |_| {
            let digit = code % limit;
            code /= limit;
            digit as u8
        };
        (0..length).map(digit).collect()
    })
}

/// A splitmix64 sequence.
#[derive(Clone)]
pub struct Random(u64);

impl Random {
    /// The sequence of a seed.
    pub fn new(seed: u64) -> Random {
        Random(seed)
    }

    /// The next 64 bits.
    pub fn bits(&mut self) -> u64 {
        self.0 = self.0.wrapping_add(0x9e37_79b9_7f4a_7c15);
        let mut mixed = self.0;
        mixed = (mixed ^ mixed >> 30).wrapping_mul(0xbf58_476d_1ce4_e5b9);
        mixed = (mixed ^ mixed >> 27).wrapping_mul(0x94d0_49bb_1331_11eb);
        mixed ^ mixed >> 31
    }

    /// A number below `limit`, which is not zero.
    pub fn below(&mut self, limit: usize) -> usize {
        (self.bits() % limit as u64) as usize
    }

    /// A number from `least` to `most`.
    pub fn between(&mut self, least: usize, most: usize) -> usize {
        least + self.below(most - least + 1)
    }

    /// True once in `count` times.
    pub fn once_in(&mut self, count: usize) -> bool {
        self.below(count) == 0
    }

    /// One of the items.
    pub fn pick<'a, T>(&mut self, items: &'a [T]) -> &'a T {
        &items[self.below(items.len())]
    }

    /// Puts the items into a random order.
    pub fn shuffle<T>(&mut self, items: &mut [T]) {
        for last in (1..items.len()).rev() {
            let other = self.below(last + 1);
            items.swap(last, other);
        }
    }
}
