//! Seeded cases, counted by their answers.

use mundrefol::generate::Random;
use std::collections::BTreeMap;
use std::env;
use std::fmt::Debug;
use std::thread;

/// Names the case when its check fails.
struct Running {
    job: &'static str,
    seed: u64,
    case: usize,
}

impl Drop for Running {
    fn drop(&mut self) {
        if thread::panicking() {
            let Running { job, seed, case } = self;
            eprintln!("failed: {job}, case {case} of MUNDREFOL_SEED={seed}");
        }
    }
}

/// The seed of this run of the tests: `MUNDREFOL_SEED`, or 1.
pub fn seed() -> u64 {
    let given = env::var("MUNDREFOL_SEED");
    given.map_or(1, |seed| seed.parse().expect("MUNDREFOL_SEED is a number"))
}

/// The sequence of one case: it depends on the seed, the job and the case alone.
fn random_of(job: &str, seed: u64, case: usize) -> Random {
    let mixed = job.bytes().fold(seed, |sum, byte| sum.wrapping_mul(257).wrapping_add(byte.into()));
    let mut random = Random::new(mixed.wrapping_mul(1 << 32).wrapping_add(case as u64));
    Random::new(random.bits())
}

/// Runs the cases of a job. Each answers one of `answers`, mostly a number, and every one must be met;
/// gives how often each was.
pub fn try_cases<A: Ord + Debug>(
    job: &'static str,
    cases: usize,
    answers: &[A],
    try_case: impl Fn(&mut Random) -> A,
) -> BTreeMap<A, usize> {
    let seed = seed();
    let mut met: BTreeMap<A, usize> = BTreeMap::new();
    for case in 0..cases {
        let _running = Running { job, seed, case };
        let answer = try_case(&mut random_of(job, seed, case));
        *met.entry(answer).or_default() += 1;
    }
    println!("{job}: {cases} cases of seed {seed}, by answer {met:?}");
    for answer in answers {
        assert!(met.contains_key(answer), "{job}: {answer:?} was never met, seed {seed}");
    }
    for answer in met.keys() {
        assert!(answers.contains(answer), "{job}: {answer:?} is not one of its answers");
    }
    met
}
