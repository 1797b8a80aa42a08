//! The rows of document 02 on shorter evenings, on both implementations: what is left of a plan, what
//! stands behind it, and which byte 19 names.

use mundrefol::examples::{gate, lamp};
use mundrefol::file::File;
use mundrefol::generate::{plan_of, runs_of, stored, Table};
use mundrefol::plain::{COUPLES, EVERY_SETTING, EVOLUTIONS, NO_SETTING, POWER_UP, STATES};
use mundrefol::{plain, Answer, Evolution, Frame};

/// The lamp's plan, as document 01 has it.
const LAMP: [u8; 12] = [1, 0, 0, 2, 0, 0, 1, 3, 0, 0, 1, 0];

/// The table of a file that reads.
fn table(file: &File) -> Table {
    let mut moves = vec![0; COUPLES];
    let mut records = vec![Evolution::default(); EVOLUTIONS];
    let contents = mundrefol::read(&file.bytes(), &mut moves, &mut [0; STATES], &mut records);
    assert_eq!(contents.answer, Answer::done(0));
    moves.truncate(contents.frame.couples());
    Table { frame: contents.frame, moves }
}

/// A table of one state, which rests everywhere: each setting is a start, and visits its own couple.
fn one_state(inputs: usize) -> Table {
    let frame = Frame { inputs, states: 1, starts: EVERY_SETTING, ..Frame::default() };
    Table { frame, moves: vec![0; 1 << inputs] }
}

/// Shortens a plan by both, which must agree; answers what then stands in the buffer.
fn shortened(table: &Table, plan: &[u8]) -> (Answer, Vec<u8>) {
    let by = |job: fn(Frame, &[u8], &mut [u8]) -> Answer| {
        let mut plan = plan.to_vec();
        (job(table.frame, &table.moves, &mut plan), plan)
    };
    let left = by(mundrefol::shorten);
    assert_eq!(left, by(plain::shorten));
    left
}

/// The plan becomes these runs, and keeps its bytes behind them.
#[track_caller]
fn becomes(table: &Table, plan: &[u8], left: &[u8]) {
    let buffer = [left, &plan[left.len()..]].concat();
    assert_eq!(shortened(table, plan), (Answer::done(left.len()), buffer));
}

/// The plan is refused, and stays.
#[track_caller]
fn refused(table: &Table, plan: &[u8], number: usize, place: usize) {
    assert_eq!(shortened(table, plan), (Answer::refused(number, place), plan.to_vec()));
}

#[test]
fn lamp_shrinks_to_five_bytes() {
    let lamp = table(&lamp());
    assert_eq!(plan_of(&lamp), LAMP);
    let left = (Answer::done(5), vec![3, 0, 0, 1, 0, 0, 1, 3, 0, 0, 1, 0]);
    assert_eq!(shortened(&lamp, &LAMP), left);
    becomes(&lamp, &LAMP[7..], &LAMP[7..]);
    becomes(&lamp, &LAMP[..7], &LAMP[3..7]);
    becomes(&lamp, &[&LAMP[7..], &LAMP[..7]].concat(), &LAMP[7..]);
}

/// Of the gate's 29 runs 14 are left; they stay when they are shortened again.
#[test]
fn gate_shrinks_to_fourteen_runs() {
    let gate = table(&gate());
    let plan = plan_of(&gate);
    let left: [&[u8]; 14] = [
        &[8, 0, 1],
        &[8, 0, 2],
        &[5, 4, 5],
        &[5, 4, 6],
        &[8, 0, 8],
        &[5, 4, 12],
        &[5, 1, 0, 4],
        &[5, 1, 5],
        &[6, 2, 6],
        &[7, 3, 7],
        &[8, 10, 8, 12],
        &[5, 1, 9, 13],
        &[8, 10, 14],
        &[9, 11, 15],
    ];
    let left = stored(&left.map(<[u8]>::to_vec));
    assert_eq!((runs_of(&plan).len(), plan.len(), left.len()), (29, 131, 73));
    becomes(&gate, &plan, &left);
    becomes(&gate, &left, &left);
    becomes(&gate, &[&plan[..], &plan].concat(), &left);
}

/// Of two equal runs the first goes; of two runs that visit the same couples, the first too.
#[test]
fn a_run_twice() {
    let plain = one_state(2);
    becomes(&plain, &[1, 0, 0, 1, 0, 0], &[1, 0, 0]);
    becomes(&plain, &[1, 0, 0, 1, 0, 1, 1, 0, 0], &[1, 0, 1, 1, 0, 0]);
    becomes(&plain, &[2, 0, 0, 1, 2, 0, 1, 0], &[2, 0, 1, 0]);
    becomes(&plain, &[2, 0, 0, 1, 3, 0, 1, 3, 1, 2, 0, 1, 0], &[3, 0, 1, 3, 1, 2, 0, 1, 0]);
    let twice = [LAMP, LAMP].concat();
    becomes(&table(&lamp()), &twice, &LAMP[7..]);
}

/// A run goes also if no single other run visits all its couples; one that comes back to a couple
/// does not visit it for itself.
#[test]
fn several_runs_for_one() {
    let plain = one_state(2);
    becomes(&plain, &[2, 0, 0, 1, 1, 0, 0, 1, 0, 1], &[1, 0, 0, 1, 0, 1]);
    becomes(&plain, &[1, 0, 0, 1, 0, 1, 2, 0, 0, 1], &[2, 0, 0, 1]);
    becomes(&plain, &[2, 0, 0, 1, 2, 0, 1, 3, 2, 0, 3, 2], &[2, 0, 0, 1, 2, 0, 3, 2]);
    becomes(&plain, &[5, 0, 0, 1, 0, 1, 0, 1, 0, 0], &[5, 0, 0, 1, 0, 1, 0]);
}

#[test]
fn an_empty_plan() {
    becomes(&table(&lamp()), &[], &[]);
    becomes(&table(&gate()), &[], &[]);
    becomes(&without_start(), &[], &[]);
}

#[test]
fn a_run_of_no_settings() {
    let lamp = table(&lamp());
    refused(&lamp, &[0, 0], 19, 0);
    refused(&lamp, &[1, 0, 0, 0, 0], 19, 3);
    refused(&lamp, &[1, 0, 0, 0, 0, 1, 0, 0], 19, 3);
}

#[test]
fn a_cut_run() {
    let lamp = table(&lamp());
    for (start, end) in [(0, 3), (3, 7), (7, 12)] {
        for length in start + 1..end {
            refused(&lamp, &LAMP[..length], 19, start);
        }
    }
    refused(&lamp, &[255, 255, 0], 19, 0);
    refused(&lamp, &[1, 0, 0, 1, 1, 0], 19, 3);
}

/// What 17 refuses: a setting too large, no start, no input changed, or two; wherever the run stands.
#[test]
fn a_run_that_17_refuses() {
    let lamp = table(&lamp());
    for run in [&[1, 0, 2][..], &[2, 0, 0, 2], &[1, 0, 1], &[2, 0, 0, 0], &[3, 0, 0, 1, 1]] {
        refused(&lamp, run, 19, 0);
        refused(&lamp, &[&LAMP[..], run].concat(), 19, 12);
        refused(&lamp, &[&LAMP[..7], run, &LAMP[7..]].concat(), 19, 7);
        refused(&lamp, &[&LAMP[..7], run, &[1, 0]].concat(), 19, 7);
        refused(&lamp, &[&LAMP[..3], run, &LAMP[3..], run].concat(), 19, 3);
    }
    refused(&one_state(2), &[1, 0, 0, 2, 0, 0, 3], 19, 3);
}

/// The lamp that is never switched on.
#[test]
fn a_setting_that_is_never_used() {
    let off = table(&lamp().never("a"));
    becomes(&off, &[1, 0, 0, 1, 0, 0], &[1, 0, 0]);
    refused(&off, &LAMP, 19, 3);
    refused(&off, &LAMP[3..], 19, 0);
    let never =
        |word| Table { frame: Frame { never: [word, !0, !0, !0], ..off.frame }, ..off.clone() };
    becomes(&never(!3), &LAMP, &LAMP[7..]);
    refused(&never(1), &LAMP, 19, 0);
    refused(&never(3), &LAMP, 19, 0);
    becomes(&never(3), &[], &[]);
}

/// One state, which rests everywhere, but a run may start only at some settings.
#[test]
fn a_start_that_is_not_allowed() {
    let every = one_state(2);
    let with = |starts| Table { frame: Frame { starts, ..every.frame }, ..every.clone() };
    becomes(&with(POWER_UP), &[1, 0, 0, 2, 0, 0, 1], &[2, 0, 0, 1]);
    refused(&with(POWER_UP), &[1, 0, 0, 2, 0, 1, 0], 19, 3);
    refused(&with(NO_SETTING), &[1, 0, 0], 19, 0);
    becomes(&with(NO_SETTING), &[], &[]);
}

/// Two states, the initial one resting nowhere.
fn without_start() -> Table {
    let frame = Frame { inputs: 1, states: 2, starts: EVERY_SETTING, ..Frame::default() };
    Table { frame, moves: vec![1; 4] }
}

/// Without a start no run is one; there is no 13.
#[test]
fn a_table_without_a_start() {
    let table = without_start();
    assert_eq!(mundrefol::mark(table.frame, &table.moves, &mut [0; 4]).number, 13);
    refused(&table, &LAMP, 19, 0);
    refused(&table, &[1, 0, 1], 19, 0);
    refused(&table, &[9], 19, 0);
}

/// 2, 3, 4 and 10 come before 19, and after them nothing changes.
#[test]
fn other_refusals_first() {
    let lamp = table(&lamp());
    let with = |frame, moves: &[u8]| Table { frame, moves: moves.to_vec() };
    let Frame { inputs, states, .. } = lamp.frame;
    for plan in [&LAMP[..], &[], &[9], &[1, 0, 1]] {
        for frame in [
            Frame { inputs: 0, ..lamp.frame },
            Frame { inputs: 9, ..lamp.frame },
            Frame { states: 0, ..lamp.frame },
            Frame { states: 33, ..lamp.frame },
            Frame { initial: states, ..lamp.frame },
        ] {
            refused(&with(frame, &lamp.moves), plan, 2, 0);
        }
        refused(&with(lamp.frame, &[2, 2, 2]), plan, 3, states << inputs);
        refused(&with(lamp.frame, &[1, 0, 2, 3]), plan, 4, 2);
        refused(&with(lamp.frame, &[0, 1, 0, 0]), plan, 10, 1);
    }
}

/// The number of settings has its low byte first; a run may have as many as fit there.
#[test]
fn long_runs() {
    let plain = one_state(1);
    let run = |settings: usize| (0..settings).map(|index| (index % 2) as u8).collect::<Vec<_>>();
    for settings in [255, 256, 257, 511, 512, 65_535] {
        let long = stored(&[run(settings)]);
        assert_eq!(long.len(), settings + 2);
        becomes(&plain, &[&long[..], &long].concat(), &long);
        becomes(&plain, &[&long[..], &[2, 0, 1, 0]].concat(), &[2, 0, 1, 0]);
        refused(&plain, &[&long[..], &long[..settings + 1]].concat(), 19, settings + 2);
    }
}
