//! The table jobs of runs that may change several inputs: the run to a couple, the list, readings.

use super::both::{self, answers, Met, BOTH, NOT_ALLOWED, RULED_OUT, RULED_OUT_LATER, SAME};
use super::cases::try_cases;
use super::lent::{as_lent, lent_run};
use mundrefol::examples::long_list;
use mundrefol::generate::{any_apart, longest_table, multi_runs_of, multi_walk, multiple_changes};
use mundrefol::generate::{widest_table, Random, Table};
use mundrefol::plain::{self, set_of, COUPLES, EVOLUTIONS, LIST, STATES};
use mundrefol::{Evolution, Frame};

const RUN_TO: usize = 12_000;
const LISTS: usize = 5_000;
const EXPECTED: usize = 8_000;

/// How often each answer is met at least.
const OFTEN: usize = 10;

/// The multiple changes of a run, and the runs of a list.
const COUNTS: [&str; 4] = ["none", "one", "two", "three or more"];
const NO_RUN: &str = "no run";
const ONE_RUN: &str = "one run";
const SOME_RUNS: &str = "some runs";
const MANY_RUNS: &str = "over a hundred runs";

/// A lent table, mostly with couples that single changes do not reach.
fn lent_apart(random: &mut Random) -> Table {
    let table = any_apart(random);
    as_lent(random, table)
}

/// The answers of a job that is refused as marking is, then by others.
fn refusals(more: &[usize]) -> Vec<Met> {
    answers(&[&[2, 3, 4, 10, 13][..], more].concat(), &[13], (13, BOTH))
}

fn met_often(met: impl IntoIterator<Item = (Met, usize)>) {
    for (answer, times) in met {
        assert!(times >= OFTEN, "{answer:?} was met {times} times");
    }
}

/// Each refusal, and runs with few multiple changes and many. 20 is never for starts that are not allowed:
/// a change from any start visits the couple of each other.
#[test]
fn multi_run_to() {
    let mut all = refusals(&[14, 16, 20]);
    all.push((20, RULED_OUT));
    all.extend(COUNTS.map(|count| (0, count)));
    let jobs = [mundrefol::multi_run_to, plain::multi_run_to];
    met_often(try_cases("multi_run_to", RUN_TO, &all, |random| {
        let lent = lent_apart(random);
        let (met, run) = both::run_to(random, &lent, jobs);
        match met.0 {
            0 => (0, COUNTS[multiple_changes(&run).min(COUNTS.len() - 1)]),
            _ => met,
        }
    }));
}

/// Each refusal, and lists of no run and of many.
#[test]
fn multi_list() {
    let mut all = refusals(&[16]);
    all.extend([NO_RUN, ONE_RUN, SOME_RUNS, MANY_RUNS].map(|runs| (0, runs)));
    let jobs = [mundrefol::multi_list, plain::multi_list];
    met_often(try_cases("multi_list", LISTS, &all, |random| {
        let lent = lent_apart(random);
        let (met, list) = both::write(random, &lent, jobs);
        let runs = match multi_runs_of(&list).len() {
            0 => NO_RUN,
            1 => ONE_RUN,
            2..=100 => SOME_RUNS,
            _ => MANY_RUNS,
        };
        if met.0 == 0 {
            (0, runs)
        } else {
            met
        }
    }));
}

#[test]
fn multi_expected() {
    let mut all = answers(&[0, 2, 3, 4, 10, 17], &[], (17, RULED_OUT_LATER));
    all.extend([(17, RULED_OUT), (17, NOT_ALLOWED)]);
    let jobs = [mundrefol::multi_expected, plain::multi_expected];
    met_often(try_cases("multi_expected", EXPECTED, &all, |random| {
        let lent = lent_apart(random);
        let run = lent_run(random, &lent, multi_walk);
        let met = both::expected(random, &lent, &run, jobs);
        assert!(met.0 != 0 || met.1 == SAME);
        met
    }));
}

/// The table of a file.
fn table_of(file: &[u8]) -> Table {
    let mut moves = vec![0; COUPLES];
    let mut records = vec![Evolution::default(); EVOLUTIONS];
    let contents = plain::read(file, &mut moves, &mut [0; STATES], &mut records);
    moves.truncate(contents.frame.couples());
    Table { frame: contents.frame, moves }
}

/// The table with the longest runs, from a start that single changes do not leave.
fn longest_apart() -> Table {
    let Table { frame, moves } = longest_table();
    let start = frame.couples() / frame.states - 1;
    let never = set_of(|setting| (setting ^ start).is_power_of_two());
    Table { frame: Frame { never, starts: set_of(|setting| setting == start), ..frame }, moves }
}

/// Lists of the largest tables, longer than the program's buffer too: every byte.
#[test]
fn longest_lists() {
    let jobs = [mundrefol::multi_list, plain::multi_list];
    for (table, too_long) in
        [(widest_table(), false), (table_of(&long_list().bytes()), true), (longest_apart(), true)]
    {
        assert_eq!(both::write_whole(&table, jobs).len() > LIST, too_long);
    }
}
