//! Allowed starts: what reading answers of kind 6 and without it, and what the table jobs make of it.

mod cases;
mod made;

use cases::try_cases;
use made::{jobs, made, marked, one_state, Made, SETS};
use mundrefol::examples::{cutter, gate, lamp};
use mundrefol::file::File;
use mundrefol::generate::{any_table, runs_of, settled_file, Table};
use mundrefol::plain::{holds, set_of};
use mundrefol::plain::{Set, EVERY_SETTING, NO_SETTING, POWER_UP, STATES, UNMARKED};
use mundrefol::{Answer, Contents, Frame};

/// The lamp's plan, as document 01 has it.
const LAMP: [u8; 12] = [1, 0, 0, 2, 0, 0, 1, 3, 0, 0, 1, 0];

/// Only the bits below 2^inputs of the settings at which the condition holds; without kind 6 setting 0.
#[test]
fn the_set_of_a_condition() {
    assert_eq!(made(&one_state(8)).contents.frame.starts, POWER_UP);
    for (inputs, text, set) in SETS {
        assert_eq!(made(&one_state(inputs).starts(text)).contents.frame.starts, set, "{text}");
    }
    for file in [one_state(2).starts("0"), one_state(2).starts("c"), lamp().starts("a")] {
        assert_eq!(made(&file).contents.frame, Frame::default());
    }
}

/// Neither kind 5 nor the rest of the initial state takes members away.
#[test]
fn the_set_is_what_the_condition_says() {
    let Contents { frame, .. } = made(&lamp().never("a").starts("1")).contents;
    assert_eq!((frame.never, frame.starts), ([2, 0, 0, 0], [3, 0, 0, 0]));
    try_cases("sets", 1_500, &[false, true], |random| {
        let file = settled_file(random);
        let Contents { answer, frame, .. } = made(&file).contents;
        let inputs = usize::from(file.inputs);
        let set = |text: &String| {
            let says = |setting| holds(text.as_bytes(), inputs, setting) == Some(true);
            set_of(|setting| setting < 1 << inputs && says(setting))
        };
        let sets = (
            file.never.as_ref().map_or(NO_SETTING, set),
            file.starts.as_ref().map_or(POWER_UP, set),
        );
        let read = answer.number == 0;
        let right = if read { sets } else { (NO_SETTING, NO_SETTING) };
        assert_eq!((frame.never, frame.starts), right);
        read
    });
}

/// The runs of the plan.
fn runs(made: &Made) -> Vec<Vec<u8>> {
    runs_of(&made.plan[..made.answers[1].place])
}

/// The couples at which runs start.
fn starts(frame: Frame, ranks: &[u16]) -> Vec<usize> {
    (0..frame.couples()).filter(|&couple| ranks[couple] == 0).collect()
}

/// With kind 6 `1` the gate is document 01's; without kind 6 it has no start.
#[test]
fn gate_with_kind_6_and_without() {
    let with = made(&gate());
    assert_eq!(with.contents.frame.starts, [0xffff, 0, 0, 0]);
    assert_eq!(starts(with.contents.frame, &with.ranks), [5, 6, 7, 8, 9, 12, 13, 14, 15]);
    assert_eq!((marked(&gate()).len(), with.answers[1].place), (40, 131));
    let without = made(&File { starts: None, ..gate() });
    let refused = Contents { answer: Answer::refused(13, 0), ..Contents::default() };
    assert_eq!(without.contents, refused);
    let at_power_up = Frame { starts: POWER_UP, ..with.contents.frame };
    let (answers, ranks, _) = jobs(at_power_up, &with.table);
    assert_eq!(answers, [Answer::refused(13, 0); 2]);
    assert!(ranks[..48].iter().all(|&rank| rank == UNMARKED));
}

/// The lamp rests only at setting 0: it is the same with kind 6 `1`, and has no start without 0.
#[test]
fn lamp_at_power_up() {
    let (without, with) = (made(&lamp()), made(&lamp().starts("1")));
    assert_eq!(without.contents.frame.starts, POWER_UP);
    assert_eq!(with.contents.frame.starts, [3, 0, 0, 0]);
    assert_eq!(without.plan[..12], LAMP);
    let all = |made: Made| (made.table, made.words, made.answers, made.ranks, made.plan);
    assert_eq!(all(without), all(with));
    for text in ["a", "0", "a.!a"] {
        assert_eq!(made(&lamp().starts(text)).contents.answer, Answer::refused(13, 0));
    }
}

/// Kind 6 may hold where the initial state does not rest, and where kind 5 rules out.
#[test]
fn starts_that_are_left() {
    let cases = [
        (gate().starts("!a.!b.d"), 0x1100, vec![8, 12]),
        (gate().starts("!a.d"), 0x5500, vec![8, 12, 14]),
        (cutter().starts("b"), 0xcc, vec![2]),
        (cutter(), 1, vec![0]),
        (File { never: None, ..cutter() }.starts("b"), 0xcc, vec![2, 6, 7]),
    ];
    for (file, set, left) in cases {
        let made = made(&file);
        let frame = made.contents.frame;
        assert_eq!(frame.starts, [set, 0, 0, 0]);
        assert_eq!(starts(frame, &made.ranks), left);
        assert!(runs(&made).iter().all(|run| left.contains(&usize::from(run[0]))));
    }
}

/// 13 wherever kind 5 takes each allowed start at which the initial state rests.
#[test]
fn starts_that_are_all_ruled_out() {
    for (file, number) in [
        (cutter().starts("b.c"), 13),
        (cutter().never("b.!a").starts("b.!c"), 13),
        (cutter().never("b.!a").starts("b"), 0),
        (gate().never("d").starts("d"), 13),
        (gate().never("d").starts("c+d"), 0),
        (lamp().never("!a"), 13),
        (lamp().never("!a").starts("1"), 13),
        (cutter().never("!a.!b.!c"), 13),
    ] {
        assert_eq!(made(&file).contents.answer.number, number, "{file:?}");
    }
}

/// Kind 6 `1`, or every bit set, is document 01's rule: a start is wherever the initial state rests.
#[test]
fn document_01s_starts() {
    try_cases("kind 6 `1`", 1_500, &[false, true], |random| {
        let Made { contents, table, answers, ranks, plan, .. } =
            made(&settled_file(random).starts("1"));
        let Contents { answer, frame, .. } = contents;
        let read = answer.number == 0;
        if read {
            let every = Frame { starts: EVERY_SETTING, ..frame };
            assert_eq!(jobs(every, &table), (answers, ranks.clone(), plan));
            let (settings, initial) = (1 << frame.inputs, frame.initial);
            let rests = |&couple: &usize| usize::from(table[couple]) == initial;
            let used = |&couple: &usize| !frame.rules_out(couple % settings);
            let own = initial * settings..(initial + 1) * settings;
            assert_eq!(starts(frame, &ranks), own.filter(rests).filter(used).collect::<Vec<_>>());
        }
        read
    });
}

/// What 17 and 19 answer for a run of the gate, and for its stored form behind another.
fn refusals(starts: Set, run: &[u8]) -> [Answer; 2] {
    let Made { contents: Contents { frame, .. }, table, words, .. } = made(&gate());
    let frame = Frame { starts, ..frame };
    let expected = mundrefol::expected(frame, &table, &words, run, &mut [0; 9]);
    let mut plan = [&[1, 0, 8, run.len() as u8, 0], run].concat();
    [expected, mundrefol::shorten(frame, &table, &mut plan)]
}

/// A run that starts where the initial state rests, but where a run may not start.
#[test]
fn a_start_that_is_not_allowed() {
    let allowed = |setting: usize| set_of(|it| it == setting || it == 8);
    assert_eq!(refusals(allowed(12), &[12, 4]), [Answer::done(3), Answer::done(7)]);
    assert_eq!(refusals(allowed(8), &[12, 4]), [Answer::refused(17, 0), Answer::refused(19, 3)]);
    assert_eq!(refusals(allowed(8), &[8, 12, 4]), [Answer::done(5), Answer::done(5)]);
    assert_eq!(refusals(POWER_UP, &[0]), [Answer::refused(17, 0), Answer::refused(19, 0)]);
    assert_eq!(refusals(NO_SETTING, &[8]), [Answer::refused(17, 0), Answer::refused(19, 0)]);
    assert_eq!(refusals(EVERY_SETTING, &[8]), [Answer::done(1), Answer::done(3)]);
}

/// Bits at and beyond 2^inputs of either set change nothing; no run uses a setting that is ruled out,
/// or starts where it may not.
#[test]
fn bits_beyond_the_settings() {
    try_cases("bits beyond", 1_500, &[0, 4, 10, 13], |random| {
        let Table { frame, moves } = any_table(random);
        let settings = 1 << frame.inputs;
        let with = |beyond: [bool; 2]| Frame {
            never: set_of(|it| if it < settings { frame.rules_out(it) } else { beyond[0] }),
            starts: set_of(|it| if it < settings { frame.allows_start(it) } else { beyond[1] }),
            ..frame
        };
        let right = jobs(frame, &moves);
        let ([marked, planned], _, plan) = &right;
        let runs = runs_of(&plan[..if marked.number == 0 { planned.place } else { 0 }]);
        for beyond in [[false, false], [false, true], [true, false], [true, true]] {
            assert_eq!(jobs(with(beyond), &moves), right);
            for run in &runs {
                let mut readings = vec![0; 2 * run.len() - 1];
                let words = [0; STATES];
                let answer = mundrefol::expected(with(beyond), &moves, &words, run, &mut readings);
                assert_eq!(answer, Answer::done(readings.len()));
            }
        }
        let used = |&setting: &u8| !frame.rules_out(setting.into());
        assert!(runs.concat().iter().all(used));
        assert!(runs.iter().all(|run| frame.allows_start(run[0].into())));
        marked.number
    });
}
