//! The plan shortened, against document 02 read run by run: the same couples, no run in vain.

use super::cases::try_cases;
use super::library::{plan, runs, shortened};
use super::steps::{is_run, visits};
use super::{sound_table, Answer};
use mundrefol::generate::{any_plan, any_runs, longest_table, stored, Random, Table};
use std::collections::BTreeSet;

/// The couples that each run visits.
fn visits_of(table: &Table, runs: &[Vec<usize>]) -> Vec<BTreeSet<usize>> {
    runs.iter().map(|run| visits(table, run).0).collect()
}

/// Whether each couple of the set at `at` is in some other set too.
fn is_spare(sets: &[BTreeSet<usize>], at: usize) -> bool {
    let others = (0..sets.len()).filter(|&other| other != at);
    sets[at].iter().all(|couple| others.clone().any(|other| sets[other].contains(couple)))
}

/// The runs left when each in turn is taken out if it is spare among those still in.
fn one_by_one(table: &Table, mut runs: Vec<Vec<usize>>) -> Vec<Vec<usize>> {
    let mut sets = visits_of(table, &runs);
    let mut at = 0;
    while at < runs.len() {
        if is_spare(&sets, at) {
            runs.remove(at);
            sets.remove(at);
        } else {
            at += 1;
        }
    }
    runs
}

/// A table of few couples, so that every run can be compared with every other.
fn small_table(random: &mut Random) -> Table {
    loop {
        let table = sound_table(random);
        if table.moves.len() <= 256 {
            return table;
        }
    }
}

/// Shortens a plan: the same couples are visited, no run left is spare, and the right ones are left.
/// Answers whether runs were taken out.
fn try_plan(table: &Table, plan: Vec<u8>) -> bool {
    let lent = runs(&plan);
    let left = runs(&shortened(table, plan));
    let sets = visits_of(table, &left);
    let all = |sets: &[BTreeSet<usize>]| sets.iter().flatten().copied().collect::<BTreeSet<_>>();
    assert_eq!(all(&sets), all(&visits_of(table, &lent)));
    assert!((0..left.len()).all(|at| !is_spare(&sets, at)));
    let fewer = left.len() < lent.len();
    assert_eq!(left, one_by_one(table, lent));
    fewer
}

#[test]
fn plans_of_document_01() {
    try_cases("shortened plans", 800, &[false, true], |random| {
        let table = small_table(random);
        try_plan(&table, plan(&table))
    });
}

#[test]
fn plans_of_any_runs() {
    try_cases("shortened runs", 1_200, &[false, true], |random| {
        let table = small_table(random);
        let mut runs = any_runs(random, &table);
        runs.truncate(200);
        try_plan(&table, stored(&runs))
    });
}

/// The plan with the most bytes: each run left visits some couple alone.
#[test]
fn the_longest_plan() {
    let table = longest_table();
    let lent = plan(&table);
    let left = shortened(&table, lent.clone());
    assert!(left.len() < lent.len());
    let count = |plan: &[u8]| {
        let sets = visits_of(&table, &runs(plan));
        let mut counts = vec![0; table.moves.len()];
        sets.iter().flatten().for_each(|&couple| counts[couple] += 1);
        (sets, counts)
    };
    let ((_, before), (sets, after)) = (count(&lent), count(&left));
    assert!(before.iter().zip(&after).all(|(&before, &after)| (before > 0) == (after > 0)));
    assert!(sets.iter().all(|set| set.iter().any(|&couple| after[couple] == 1)));
}

/// The byte at which the first stored run starts that is cut or no run.
fn first_refused(table: &Table, plan: &[u8]) -> Option<usize> {
    let mut start = 0;
    while start < plan.len() {
        let run = match &plan[start..] {
            [low, high, rest @ ..] => rest.get(..usize::from(*low) + 256 * usize::from(*high)),
            _ => None,
        };
        let settings = |run: &[u8]| run.iter().map(|&it| usize::from(it)).collect::<Vec<_>>();
        match run.filter(|run| is_run(table, &settings(run))) {
            Some(run) => start += 2 + run.len(),
            None => return Some(start),
        }
    }
    None
}

#[test]
fn refused_at_the_first_that_is_no_run() {
    try_cases("no runs", 4_000, &[0, 19], |random| {
        let table = small_table(random);
        let mut plan = any_plan(random, &table);
        let refused = first_refused(&table, &plan);
        let answer = mundrefol::shorten(table.frame, &table.moves, &mut plan);
        let right = refused.map_or(Answer::done(answer.place), |at| Answer::refused(19, at));
        assert_eq!(answer, right);
        answer.number
    });
}
