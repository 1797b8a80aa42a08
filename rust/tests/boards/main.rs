//! Demand 3: marks and ranks are those of all runs, the plan visits the marked couples and no other,
//! and a board passes all readings of the plan, or of the plan shortened, exactly if its moves are
//! right at every marked couple.
//! Runs, visits and boards are followed here step by step, apart from both implementations; any
//! settings may be ruled out, and any may be allowed starts.

#[path = "../cases/mod.rs"]
mod cases;
#[path = "../followed/mod.rs"]
mod followed;
mod library;
mod shortened;
mod steps;

use cases::try_cases;
use library::Tested;
use mundrefol::generate::{all_lists, any_table, longest_table, Random, Table};
use mundrefol::plain::{EVERY_SETTING, INPUTS, UNMARKED};
use mundrefol::{Answer, Frame};
use std::collections::BTreeSet;
use steps::{differ_in_one, has_start, is_run, is_sound, is_used, ranks_by_rounds, starts, visits};

/// Any two settings, at any number of inputs: a run exactly if one input differs. Of one state every
/// setting is a start.
#[test]
fn all_changes() {
    for inputs in 1..=INPUTS {
        let frame = Frame { inputs, states: 1, starts: EVERY_SETTING, ..Frame::default() };
        let moves = vec![0; 1 << inputs];
        for run in all_lists(1 << inputs, 2) {
            let one = differ_in_one(run[0].into(), run[1].into());
            let wanted = if one { Answer::done(3) } else { Answer::refused(17, 1) };
            assert_eq!(mundrefol::expected(frame, &moves, &[0], &run, &mut [0; 3]), wanted);
        }
    }
}

/// Every sound table of these sizes, from every initial state.
fn sound_tables(inputs: usize, states: usize) -> impl Iterator<Item = Table> {
    let tables = all_lists(states, states << inputs).flat_map(move |moves| {
        let frame = move |initial| Frame { inputs, states, initial, ..Frame::default() };
        (0..states).map(move |initial| Table { frame: frame(initial), moves: moves.clone() })
    });
    tables.filter(is_sound)
}

/// A table with a set of its settings ruled out, and a set of them as allowed starts.
fn with_sets(table: &Table, never: u64, starts: u64) -> Table {
    let mut table = table.clone();
    table.frame.never[0] = never;
    table.frame.starts[0] = starts;
    table
}

/// Every sound table with a start of these sizes, from every initial state, with every `step`th pair of
/// sets of its settings.
fn all_tables(inputs: usize, states: usize, step: usize) -> impl Iterator<Item = Table> {
    let sets = 1 << (1 << inputs);
    let pairs = move || (0..sets * sets).step_by(step).map(move |pair| (pair / sets, pair % sets));
    let with_pairs =
        move |table: Table| pairs().map(move |(never, starts)| with_sets(&table, never, starts));
    sound_tables(inputs, states).flat_map(with_pairs).filter(has_start)
}

/// Tries every board on the given tables of these sizes.
fn try_all_boards(tables: impl IntoIterator<Item = Table>) {
    let (mut tried, mut passed) = (0, 0);
    for table in tables {
        let tested = Tested::new(table);
        for moves in all_lists(tested.table.frame.states, tested.table.moves.len()) {
            tried += 1;
            passed += usize::from(tested.try_board(&tested.board(moves)));
        }
    }
    println!("boards: {tried} tried, {passed} passed");
    assert!(0 < passed && passed < tried);
}

#[test]
fn all_boards_of_one_input_two_states() {
    try_all_boards(all_tables(1, 2, 1));
}

#[test]
fn all_boards_of_two_inputs_two_states() {
    try_all_boards(all_tables(2, 2, 5));
}

#[test]
fn all_boards_of_one_input_three_states() {
    try_all_boards(all_tables(1, 3, 1));
}

/// Every `step`th table of these sizes, with every setting used and every start allowed, with some
/// ruled out, and with some allowed.
fn some_tables(inputs: usize, states: usize, step: usize) -> impl Iterator<Item = Table> {
    let tables = sound_tables(inputs, states).skip(step / 2).step_by(step).zip(1..);
    let with_some = |(table, turn): (Table, u64)| {
        let some = turn * 37 % (1 << (1 << table.frame.inputs));
        [(0, !0), (some, !0), (0, some), (0, 1)]
            .map(|(never, starts)| with_sets(&table, never, starts))
    };
    tables.flat_map(with_some).filter(has_start)
}

#[test]
fn all_boards_of_three_inputs_two_states() {
    try_all_boards(some_tables(3, 2, 601));
}

#[test]
fn all_boards_of_one_input_four_states() {
    try_all_boards(some_tables(1, 4, 241));
}

#[test]
fn all_boards_of_two_inputs_three_states() {
    try_all_boards(some_tables(2, 3, 9001));
}

/// A board that differs from the table at up to three couples, or everywhere.
fn random_board(random: &mut Random, tested: &Tested) -> Table {
    let states = tested.table.frame.states;
    let mut moves = tested.table.moves.clone();
    if random.once_in(20) {
        moves.iter_mut().for_each(|to| *to = random.below(states) as u8);
    }
    for _ in 0..random.below(4) {
        let couple = random.below(moves.len());
        moves[couple] = random.below(states) as u8;
    }
    let couples = moves.len();
    let unmarked = (0..couples).filter(|couple| tested.marked.binary_search(couple).is_err());
    let change_unmarked = random.once_in(2);
    for couple in unmarked.filter(|_| change_unmarked) {
        moves[couple] = random.below(states) as u8;
    }
    tested.board(moves)
}

/// A sound table with a start.
fn sound_table(random: &mut Random) -> Table {
    loop {
        let table = any_table(random);
        if is_sound(&table) && has_start(&table) {
            return table;
        }
    }
}

#[test]
fn random_boards() {
    try_cases("boards", 600, &[0, 1], |random| {
        let tested = Tested::new(sound_table(random));
        for _ in 0..30 {
            tested.try_board(&random_board(random, &tested));
        }
        usize::from(tested.try_board(&random_board(random, &tested)))
    });
}

#[test]
fn ranks_are_the_fewest_changes() {
    try_cases("ranks", 1_500, &[0], |random| {
        let table = sound_table(random);
        assert_eq!(library::ranks(&table), ranks_by_rounds(&table));
        0
    });
}

#[test]
fn ranks_of_the_longest_runs() {
    let table = longest_table();
    assert!(is_sound(&table) && has_start(&table));
    assert_eq!(library::ranks(&table), ranks_by_rounds(&table));
}

#[test]
fn the_plan_visits_exactly_the_marked_couples() {
    try_cases("visits", 1_000, &[0], |random| {
        let table = sound_table(random);
        let ranks = ranks_by_rounds(&table);
        let mut visited = BTreeSet::new();
        let mut next = 0;
        for run in library::runs(&library::plan(&table)) {
            assert!(is_run(&table, &run));
            let couple = (next..table.moves.len())
                .find(|couple| ranks[*couple] != UNMARKED && !visited.contains(couple))
                .expect("each run is for a marked couple not yet visited");
            assert_eq!(run.len(), usize::from(ranks[couple]) + 1);
            if table.moves.len() <= 128 || random.once_in(100) {
                assert_eq!(run, library::run(&table, couple));
            }
            visited.extend(visits(&table, &run).0);
            next = couple + 1;
        }
        let marked = (0..table.moves.len()).filter(|&couple| ranks[couple] != UNMARKED);
        assert_eq!(visited, marked.collect());
        0
    });
}

/// Every run of so many changes.
fn all_runs(table: &Table, changes: usize) -> Vec<Vec<usize>> {
    let mut runs: Vec<Vec<usize>> = starts(table).into_iter().map(|start| vec![start]).collect();
    for _ in 0..changes {
        let longer = |run: &Vec<usize>| {
            let last = run[run.len() - 1];
            let next = (0..table.frame.inputs).map(move |input| last ^ 1 << input);
            let next = next.filter(|&setting| is_used(table, setting));
            let run = run.clone();
            next.map(move |setting| [run.as_slice(), &[setting]].concat()).collect::<Vec<_>>()
        };
        runs = runs.iter().flat_map(longer).collect();
    }
    runs
}

/// Among all runs with as many changes as the rank, the one whose resting couples before each change
/// are the smallest, from the last change back.
#[test]
fn the_run_to_a_couple_is_the_least_of_all_runs() {
    try_cases("least run", 400, &[0], |random| {
        let mut table = sound_table(random);
        while table.frame.inputs > 3 || table.frame.states > 5 {
            table = sound_table(random);
        }
        let ranks = ranks_by_rounds(&table);
        for couple in (0..table.moves.len()).filter(|&couple| ranks[couple] <= 5) {
            let runs = all_runs(&table, usize::from(ranks[couple])).into_iter();
            let least = runs
                .map(|run| (visits(&table, &run), run))
                .filter(|((visited, _), _)| visited.contains(&couple))
                .min_by_key(|((_, resting), _)| resting.iter().rev().copied().collect::<Vec<_>>());
            let (_, run) = least.expect("a marked couple has a run");
            assert_eq!(library::run(&table, couple), run);
        }
        0
    });
}
