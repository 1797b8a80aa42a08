//! The table jobs: marking, the run to a couple, the plan, expected readings.

use super::assert_same;
use super::both::{self, answers, compared, BOTH, RULED_OUT_LATER};
use super::cases::try_cases;
use super::lent::{lent_ranks, lent_run, lent_table};
use mundrefol::generate::{longest_table, walk};
use mundrefol::plain;

const MARK: usize = 8_000;
const RUN_TO: usize = 16_000;
const PLAN: usize = 8_000;
const EXPECTED: usize = 10_000;

#[test]
fn mark() {
    try_cases("mark", MARK, &answers(&[0, 2, 3, 4, 10, 13], &[13], (13, BOTH)), |random| {
        let lent = lent_table(random);
        let mut ranks = lent_ranks(random, &lent);
        let mut plain_ranks = ranks.clone();
        let answer = mundrefol::mark(lent.frame, &lent.moves, &mut ranks);
        let plain = plain::mark(lent.frame, &lent.moves, &mut plain_ranks);
        assert_eq!(answer, plain);
        assert_same("ranks", &ranks, &plain_ranks);
        compared(answer, lent.frame, |frame| plain::mark(frame, &lent.moves, &mut ranks))
    });
}

#[test]
fn run_to() {
    let all = answers(&[0, 2, 3, 4, 10, 13, 14, 15, 16], &[0, 13, 15], (13, BOTH));
    try_cases("run_to", RUN_TO, &all, |random| {
        let lent = lent_table(random);
        both::run_to(random, &lent, [mundrefol::run_to, plain::run_to]).0
    });
}

#[test]
fn plan() {
    let all = answers(&[0, 2, 3, 4, 10, 13, 16], &[0, 13], (13, BOTH));
    try_cases("plan", PLAN, &all, |random| {
        let lent = lent_table(random);
        both::write(random, &lent, [mundrefol::plan, plain::plan]).0
    });
}

/// The table with the longest runs: every byte of its plan.
#[test]
fn longest_plan() {
    both::write_whole(&longest_table(), [mundrefol::plan, plain::plan]);
}

#[test]
fn expected() {
    let all = answers(&[0, 2, 3, 4, 10, 17], &[17], (17, RULED_OUT_LATER));
    try_cases("expected", EXPECTED, &all, |random| {
        let lent = lent_table(random);
        let run = lent_run(random, &lent, walk);
        both::expected(random, &lent, &run, [mundrefol::expected, plain::expected])
    });
}
