//! Shortening a plan: the answer, every byte of the plan and around it, and what it was refused for.

use super::assert_same;
use super::cases::{self, try_cases};
use super::lent::{as_lent, junk_bytes};
use mundrefol::generate::{any_plan, any_runs, any_table, longest_table, plan_of};
use mundrefol::generate::{runs_of, stored, walk, Random, Table};
use mundrefol::plain::{COUPLES, SETTINGS_OF_A_RUN, STATES};
use mundrefol::{plain, Answer, Frame};

const SHORTEN: usize = 24_000;
const LONG: usize = 60;

/// How often each answer is met at least.
const OFTEN: usize = 50;

/// What became of a plan that is not refused.
const EMPTY: &str = "an empty plan";
const ALL_STAY: &str = "all runs stay";
const SOME_GO: &str = "some runs go";

/// What a plan is refused for by 19.
const ONE_BYTE: &str = "one byte left";
const CUT: &str = "a cut run";
const NO_SETTINGS: &str = "a run of no settings";
const TOO_LARGE: &str = "a setting too large";
const NEVER_START: &str = "a start ruled out";
const NEVER_LATER: &str = "a change to a setting ruled out";
const NO_START: &str = "any start, where there is none";
const NOT_ALLOWED: &str = "a start that is not allowed";
const NOT_AT_REST: &str = "a start that is not at rest";
const NO_CHANGE: &str = "no input changed";
const CHANGES: &str = "several inputs changed";

type Met = (usize, &'static str);

/// Every answer, with what became of the plan.
fn answers() -> Vec<Met> {
    let done = [EMPTY, ALL_STAY, SOME_GO].map(|what| (0, what));
    let of_the_table = [2, 3, 4, 10].map(|number| (number, ""));
    let not_split = [ONE_BYTE, CUT].map(|what| (19, what));
    let starts =
        [NO_SETTINGS, NEVER_START, NO_START, NOT_ALLOWED, NOT_AT_REST].map(|what| (19, what));
    let changes = [TOO_LARGE, NEVER_LATER, NO_CHANGE, CHANGES].map(|what| (19, what));
    [&done[..], &of_the_table, &not_split, &starts, &changes].concat()
}

/// Shortens by both, between junk that stays; gives what is then in the plan.
fn shorten_both(random: &mut Random, table: &Table, plan: &[u8]) -> (Answer, Vec<u8>) {
    let (before, after) = (random.below(9), random.between(1, 40));
    let within = before..before + plan.len();
    let mut bytes = junk_bytes(random, within.end + after);
    bytes[within.clone()].copy_from_slice(plan);
    let mut plain_bytes = bytes.clone();
    let moves = table.moves.clone();
    let answer = mundrefol::shorten(table.frame, &moves, &mut bytes[within.clone()]);
    let plain = plain::shorten(table.frame, &table.moves, &mut plain_bytes[within.clone()]);
    assert_eq!(answer, plain);
    assert_same("plan and junk", &bytes, &plain_bytes);
    assert_same("table", &moves, &table.moves);
    (answer, bytes[within].to_vec())
}

/// Shortens a plan by both, and says what became of it.
fn try_plan(random: &mut Random, table: &Table, plan: &[u8]) -> Met {
    let (Answer { number, place }, left) = shorten_both(random, table, plan);
    let changed = if number == 0 { place } else { 0 };
    assert_same("kept bytes", &left[changed..], &plan[changed..]);
    let what = match number {
        0 => became(plan, &left[..place]),
        19 => cause(table, plan, place),
        _ => "",
    };
    (number, what)
}

/// The runs left are some of the runs lent, in their order.
fn became(plan: &[u8], left: &[u8]) -> &'static str {
    let mut lent = runs_of(plan).into_iter();
    assert!(runs_of(left).iter().all(|run| lent.any(|it| it == *run)));
    match (plan.len(), plan.len() - left.len()) {
        (0, _) => EMPTY,
        (_, 0) => ALL_STAY,
        _ => SOME_GO,
    }
}

/// What the run at a byte of the plan is refused for: it is cut, or the library's 17 refuses it too.
fn cause(table: &Table, plan: &[u8], place: usize) -> &'static str {
    let [low, high, after @ ..] = &plan[place..] else {
        return ONE_BYTE;
    };
    let Some(run) = after.get(..usize::from(u16::from_le_bytes([*low, *high]))) else {
        return CUT;
    };
    let mut readings = vec![0; 2 * run.len()];
    let answer = mundrefol::expected(table.frame, &table.moves, &[0; STATES], run, &mut readings);
    let Answer { number, place: at } = answer;
    assert_eq!(number, 17);
    let Some(&setting) = run.get(at) else {
        return NO_SETTINGS;
    };
    let Frame { inputs, .. } = table.frame;
    let changed = at.checked_sub(1).map(|before| (run[before] ^ setting).count_ones());
    match changed {
        _ if usize::from(setting) >= 1 << inputs => TOO_LARGE,
        None if table.frame.rules_out(setting.into()) => NEVER_START,
        Some(_) if table.frame.rules_out(setting.into()) => NEVER_LATER,
        None if marking(table) == 13 => NO_START,
        None if !table.frame.allows_start(setting.into()) => NOT_ALLOWED,
        None => NOT_AT_REST,
        Some(0) => NO_CHANGE,
        Some(_) => CHANGES,
    }
}

/// The number that marking a table answers.
fn marking(table: &Table) -> usize {
    plain::mark(table.frame, &table.moves, &mut [0; COUPLES]).number
}

#[test]
fn shorten() {
    let met = try_cases("shorten", SHORTEN, &answers(), |random| {
        let table = any_table(random);
        let plan = any_plan(random, &table);
        let lent = as_lent(random, table);
        try_plan(random, &lent, &plan)
    });
    for (answer, times) in met {
        assert!(times >= OFTEN, "{answer:?} was met {times} times");
    }
}

/// Plans of very many runs: of one table the runs again and again, in any order, now and then cut.
#[test]
fn many_runs() {
    let answers = [(0, SOME_GO), (19, CUT)];
    try_cases("many runs", LONG, &answers, |random| {
        let (mut table, mut runs) = (any_table(random), Vec::new());
        while marking(&table) != 0 || table.frame.inputs > 5 {
            table = any_table(random);
        }
        while runs.len() < 5_000 {
            runs.extend(any_runs(random, &table));
        }
        random.shuffle(&mut runs);
        let mut plan = stored(&runs);
        if random.once_in(3) {
            plan.pop();
        }
        try_plan(random, &table, &plan)
    });
}

/// A plan without its last byte, and one whose last change changes nothing.
fn spoiled_at_the_end(plan: &[u8]) -> [Vec<u8>; 2] {
    let last = plan.len() - 1;
    [plan[..last].to_vec(), [&plan[..last], &plan[last - 1..last]].concat()]
}

/// The plan with the most bytes: whole, twice, and spoiled at its end.
#[test]
fn longest_plan() {
    let (table, random) = (longest_table(), &mut Random::new(cases::seed()));
    let plan = plan_of(&table);
    assert_eq!(try_plan(random, &table, &plan), (0, SOME_GO));
    assert_eq!(try_plan(random, &table, &[&plan[..], &plan].concat()), (0, SOME_GO));
    let [cut, not_changed] = spoiled_at_the_end(&plan);
    assert_eq!(try_plan(random, &table, &cut), (19, CUT));
    assert_eq!(try_plan(random, &table, &not_changed), (19, NO_CHANGE));
}

/// A run of the most settings that can be stored: alone, behind its own beginning, and spoiled.
#[test]
fn longest_runs() {
    let answers = [(0, ALL_STAY), (0, SOME_GO), (19, CUT), (19, NO_CHANGE)];
    try_cases("longest runs", LONG, &answers, |random| {
        let table = longest_table();
        let run = walk(random, &table, SETTINGS_OF_A_RUN, false);
        assert_eq!(run.len(), SETTINGS_OF_A_RUN);
        let begun = run[..random.between(1, 300)].to_vec();
        let plan = stored(&[begun, run.clone()]);
        let [cut, not_changed] = spoiled_at_the_end(&plan);
        let plan = random.pick(&[plan, stored(&[run]), cut, not_changed]).clone();
        try_plan(random, &table, &plan)
    });
}
