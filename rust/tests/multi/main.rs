//! Runs that may change several inputs at once: the rows of document 02, what they have in common with
//! document 01's runs, and every run of small tables.

mod all_runs;
mod all_tables;
#[path = "../cases/mod.rs"]
mod cases;
#[path = "../followed/mod.rs"]
mod followed;

use followed::readings;
use mundrefol::examples::{cutter, cutter_alarm, gate, lamp, table_iv, two_hands};
use mundrefol::file::File;
use mundrefol::generate::{all_lists, multi_runs_of, Table};
use mundrefol::plain::{Expected, RunTo, Write};
use mundrefol::plain::{COUPLES, EVERY_SETTING, EVOLUTIONS, INPUTS, STATES};
use mundrefol::{plain, Answer, Evolution, Frame};

/// The table of a file, by the library; none if it is refused.
fn read(file: &File) -> Option<Table> {
    let mut moves = vec![0; COUPLES];
    let mut records = vec![Evolution::default(); EVOLUTIONS];
    let contents = mundrefol::read(&file.bytes(), &mut moves, &mut [0; STATES], &mut records);
    moves.truncate(contents.frame.couples());
    (contents.answer.number == 0).then_some(Table { frame: contents.frame, moves })
}

fn table(file: &File) -> Table {
    read(file).expect("the file reads")
}

/// The run to a couple by a job; the refusal if there is none.
fn run_by(job: RunTo, table: &Table, couple: usize) -> Result<Vec<u8>, Answer> {
    let (mut ranks, mut run) = (vec![0; table.moves.len()], vec![0; table.moves.len()]);
    let answer = job(table.frame, &table.moves, &mut ranks, couple, &mut run);
    run.truncate(answer.place);
    if answer.number == 0 {
        Ok(run)
    } else {
        Err(answer)
    }
}

/// The run to a couple by both, which must agree.
fn multi_run_to(table: &Table, couple: usize) -> Result<Vec<u8>, Answer> {
    let run = run_by(mundrefol::multi_run_to, table, couple);
    assert_eq!(run, run_by(plain::multi_run_to, table, couple));
    run
}

/// The ranks and the bytes of the plan or list.
fn written(table: &Table, job: Write) -> (Vec<u16>, Vec<u8>) {
    let mut ranks = vec![0; table.moves.len()];
    let needed = job(table.frame, &table.moves, &mut ranks, &mut []).place;
    let mut bytes = vec![0; needed];
    assert_eq!(job(table.frame, &table.moves, &mut ranks, &mut bytes), Answer::done(needed));
    (ranks, bytes)
}

/// The bytes of the list by both, which must agree.
fn list(table: &Table) -> Vec<u8> {
    let both = written(table, mundrefol::multi_list);
    assert_eq!(both, written(table, plain::multi_list));
    both.1
}

fn settings(run: &[u8]) -> Vec<usize> {
    run.iter().map(|&setting| setting.into()).collect()
}

/// The list's runs, each its count of multiple changes and its settings, are these.
#[track_caller]
fn assert_list(file: &File, right: &[(usize, &[u8])]) {
    let right: Vec<_> = right.iter().map(|&(count, run)| (count, run.to_vec())).collect();
    assert_eq!(multi_runs_of(&list(&table(file))), right);
}

/// Document 02's gate: a run to each unmarked couple, 56 bytes.
#[test]
fn gate_list() {
    let gate = table(&gate());
    let bytes = list(&gate);
    assert_eq!((bytes.len(), &bytes[..14]), (56, &[1, 0, 3, 0, 8, 0, 3, 1, 0, 3, 0, 8, 0, 7][..]));
    let last = [19, 23, 25, 26, 27, 29, 30, 31];
    for (couple, (count, run)) in last.into_iter().zip(multi_runs_of(&bytes)) {
        assert_eq!((count, &run[..]), (1, &[8, 0, couple as u8 - 16][..]));
        assert_eq!(multi_run_to(&gate, couple), Ok(run));
        assert_eq!(run_by(mundrefol::run_to, &gate, couple), Err(Answer::refused(15, 0)));
    }
    assert_eq!(multi_run_to(&gate, 44), Ok(vec![8, 10, 8, 12]));
    assert_eq!(multi_run_to(&gate, 48), Err(Answer::refused(14, 0)));
    let short =
        |list: &mut [u8]| mundrefol::multi_list(gate.frame, &gate.moves, &mut [0; 48], list);
    assert_eq!(short(&mut [0; 55]), Answer::refused(16, 56));
    let short = |run| mundrefol::multi_run_to(gate.frame, &gate.moves, &mut [0; 48], 19, run);
    assert_eq!(short(&mut [0; 2]), Answer::refused(16, 3));
}

/// Runs with one multiple change and more; none where single changes reach what can be reached.
#[test]
fn other_lists() {
    assert_list(&table_iv(), &[(1, &[3, 0]), (1, &[3, 1, 6]), (1, &[3, 1, 7])]);
    let [press, release] = [3, 0];
    assert_list(
        &two_hands(),
        &[
            (1, &[0, press]),
            (2, &[0, press, release]),
            (1, &[0, press, 1]),
            (1, &[0, press, 2]),
            (2, &[0, press, release, 1]),
            (2, &[0, press, release, 2]),
            (3, &[0, press, release, press]),
        ],
    );
    for file in [lamp(), cutter(), cutter_alarm(), two_hands().never("a.b")] {
        assert_list(&file, &[]);
    }
}

/// 20: settings that are ruled out, and states that only those lead to.
#[test]
fn couples_that_no_run_visits() {
    let without = |file: &File| {
        let table = table(file);
        let refused = |&couple: &usize| multi_run_to(&table, couple) == Err(Answer::refused(20, 0));
        (0..table.moves.len()).filter(refused).collect::<Vec<_>>()
    };
    assert_eq!(without(&gate()), []);
    assert_eq!(without(&gate().never("a.b")), (3..48).step_by(4).collect::<Vec<_>>());
    assert_eq!(without(&lamp().never("a")), [1, 2, 3]);
    let alarm = without(&cutter_alarm());
    assert!((32..40).all(|couple| alarm.contains(&couple)) && alarm.len() == 16);
}

/// The answer for a run and its readings by both, which must agree.
fn expected(table: &Table, run: &[u8]) -> (Answer, Vec<u16>) {
    let words: Vec<u16> = (0..table.frame.states as u16).collect();
    let by = |job: Expected| {
        let mut readings = vec![99; 2 * run.len()];
        (job(table.frame, &table.moves, &words, run, &mut readings), readings)
    };
    let answer = by(mundrefol::multi_expected);
    assert_eq!(answer, by(plain::multi_expected));
    answer
}

/// Any two settings, at any number of inputs: a run exactly if they differ.
#[test]
fn all_changes() {
    for inputs in 1..=INPUTS {
        let frame = Frame { inputs, states: 1, starts: EVERY_SETTING, ..Frame::default() };
        let moves = vec![0; 1 << inputs];
        for run in all_lists(1 << inputs, 2) {
            let wanted = if run[0] != run[1] { Answer::done(3) } else { Answer::refused(17, 1) };
            assert_eq!(mundrefol::multi_expected(frame, &moves, &[0], &run, &mut [0; 3]), wanted);
        }
    }
}

/// The two hands' readings, and the first fault of what is not a run.
#[test]
fn two_hands_readings() {
    let hands = table(&two_hands());
    let run = [0, 3, 0, 3, 2, 0];
    let right = readings(&hands, &[0, 1, 2, 3], &settings(&run));
    assert_eq!(right, [0, 1, 1, 3, 3, 1, 1, 2, 2, 0, 0]);
    assert_eq!(expected(&hands, &run), (Answer::done(11), [&right[..], &[99]].concat()));
    assert_eq!(
        mundrefol::expected(hands.frame, &hands.moves, &[0; 4], &run, &mut [0; 11]),
        Answer::refused(17, 1)
    );
    let fault = |table: &Table, run: &[u8]| expected(table, run).0;
    for (run, at) in [
        (&[][..], 0),
        (&[3], 0),
        (&[4, 0], 0),
        (&[0, 0], 1),
        (&[0, 3, 3, 0], 2),
        (&[0, 3, 4, 4], 2),
        (&[0, 3, 255], 2),
    ] {
        assert_eq!(fault(&hands, run), Answer::refused(17, at), "{run:?}");
    }
    let never = table(&two_hands().never("a.b"));
    assert_eq!(fault(&never, &[0, 1, 2, 0]), Answer::done(7));
    assert_eq!(fault(&never, &[0, 1, 3, 3]), Answer::refused(17, 2));
    assert_eq!(fault(&never, &[0, 1, 2, 2]), Answer::refused(17, 3));
}
