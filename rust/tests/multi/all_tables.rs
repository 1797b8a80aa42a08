//! What holds of every table and of every file that is read.

use super::all_runs::AllRuns;
use super::cases::try_cases;
use super::followed::{readings, visits};
use super::{expected, list, multi_run_to, read, run_by, settings, written};
use mundrefol::file::File;
use mundrefol::generate::{any_apart, multi_runs_of, multiple_changes, runs_of, settled_file};
use mundrefol::generate::{Random, Table};
use mundrefol::plain::{set_of, COUPLES, UNMARKED};
use mundrefol::{Answer, Frame};
use std::collections::BTreeSet;

/// At most so many couples of a table are asked for their runs.
const ASKED: usize = 16;
/// Couples of a table whose runs are looked at one by one.
const SMALL: usize = 32;

/// Some table that marking does not refuse.
fn marked_table(random: &mut Random) -> Table {
    loop {
        let table = any_apart(random);
        if mundrefol::mark(table.frame, &table.moves, &mut [0; COUPLES]).number == 0 {
            return table;
        }
    }
}

/// Some couples of a table, or all if they are few, rising.
fn some_couples(random: &mut Random, table: &Table) -> BTreeSet<usize> {
    let mut couples: Vec<usize> = (0..table.moves.len()).collect();
    random.shuffle(&mut couples);
    couples.truncate(ASKED);
    BTreeSet::from_iter(couples)
}

/// For a marked couple the run is document 01's, without a multiple change; for any other it has some,
/// visits the couple, and has as many readings as a run.
#[test]
fn marked_couples_have_document_01s_run() {
    try_cases("marked couples", 400, &[0, 1, 2], |random| {
        let table = marked_table(random);
        let mut ranks = vec![0; table.moves.len()];
        mundrefol::mark(table.frame, &table.moves, &mut ranks);
        let mut most = 0;
        for couple in some_couples(random, &table) {
            let run = multi_run_to(&table, couple);
            if ranks[couple] != UNMARKED {
                assert_eq!(run, run_by(mundrefol::run_to, &table, couple));
            }
            let Ok(run) = run else { continue };
            assert_eq!(multiple_changes(&run) == 0, ranks[couple] != UNMARKED);
            let run_settings = settings(&run);
            assert!(visits(&table, &run_settings).0.contains(&couple));
            let words: Vec<u16> = (0..table.frame.states as u16).collect();
            let right = readings(&table, &words, &run_settings);
            let (answer, read) = expected(&table, &run);
            assert_eq!((answer, &read[..right.len()]), (Answer::done(right.len()), &right[..]));
            most = most.max(multiple_changes(&run));
        }
        most.min(2)
    });
}

/// Plan and list together visit each couple that some run visits, and no other; the list holds the run to
/// each unmarked couple, rising, that no earlier one of its runs visits, with its multiple changes.
#[test]
fn plan_and_list_visit_every_couple() {
    try_cases("plan and list", 400, &[false, true], |random| {
        let table = marked_table(random);
        let (ranks, plan) = written(&table, mundrefol::plan);
        let (again, _) = written(&table, mundrefol::multi_list);
        assert_eq!(ranks, again);
        let visits = |run: &[u8]| visits(&table, &settings(run)).0;
        let mut visited: BTreeSet<usize> =
            runs_of(&plan).iter().flat_map(|run| visits(run)).collect();
        let marked = (0..ranks.len()).filter(|&couple| ranks[couple] != UNMARKED);
        assert_eq!(visited, marked.collect());
        let runs = multi_runs_of(&list(&table));
        let mut before = None;
        for (index, (count, run)) in runs.iter().enumerate() {
            let couple = visits(run).difference(&visited).next().copied();
            assert!(couple > before, "run {index} is to couple {couple:?} after {before:?}");
            if index < ASKED {
                assert_eq!(multi_run_to(&table, couple.expect("it is above")).as_ref(), Ok(run));
            }
            assert_eq!((multiple_changes(run), *count > 0), (*count, true));
            visited.extend(visits(run));
            before = couple;
        }
        for couple in some_couples(random, &table) {
            assert_eq!(visited.contains(&couple), multi_run_to(&table, couple).is_ok());
        }
        !runs.is_empty()
    });
}

/// In a file that reads and has neither kind 5 nor kind 6, every couple has a run.
#[test]
fn files_without_kinds_5_and_6() {
    try_cases("every couple", 1_200, &["refused", "all marked", "some not"], |random| {
        let file = File { never: None, starts: None, ..settled_file(random) };
        let Some(table) = read(&file) else { return "refused" };
        let runs = some_couples(random, &table).into_iter().map(|it| multi_run_to(&table, it));
        let multiple = runs.map(|run| multiple_changes(&run.expect("every couple has a run")));
        if multiple.max() > Some(0) {
            "some not"
        } else {
            "all marked"
        }
    });
}

/// Every run of a small table, one by one: the least by the ticket's words is the run.
#[test]
fn the_least_of_all_runs() {
    try_cases("all runs", 600, &["too many", "no multiple", "one", "more"], |random| {
        let mut table = marked_table(random);
        while table.moves.len() > SMALL {
            table = marked_table(random);
        }
        let Some(least) = AllRuns::least(&table) else { return "too many" };
        let mut most = 0;
        for couple in 0..table.moves.len() {
            let run = multi_run_to(&table, couple);
            assert_eq!(run.as_deref().map(settings).ok(), least.get(&couple).cloned());
            most = most.max(run.map_or(0, |run| multiple_changes(&run)));
        }
        ["no multiple", "one", "more"][most.min(2)]
    });
}

/// Bits at and beyond 2^inputs of either set change nothing.
#[test]
fn bits_beyond_the_settings() {
    try_cases("bits beyond", 600, &[false, true], |random| {
        let Table { frame, moves } = marked_table(random);
        let settings = 1 << frame.inputs;
        let right = list(&Table { frame, moves: moves.clone() });
        for [never, starts] in [[false, false], [false, true], [true, false], [true, true]] {
            let frame = Frame {
                never: set_of(|it| if it < settings { frame.rules_out(it) } else { never }),
                starts: set_of(|it| if it < settings { frame.allows_start(it) } else { starts }),
                ..frame
            };
            let table = Table { frame, moves: moves.clone() };
            assert_eq!(list(&table), right);
            for (_, run) in multi_runs_of(&right) {
                assert_eq!(expected(&table, &run).0, Answer::done(2 * run.len() - 1));
            }
        }
        right.is_empty()
    });
}
