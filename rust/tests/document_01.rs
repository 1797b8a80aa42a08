//! The example rows of document 01, and the published tables they come from, on both implementations.
//! The gate and table IV have kind 6 `1`, which gives document 01's starts.

use mundrefol::file::File;
use mundrefol::plain::{COUPLES, EVOLUTIONS, POWER_UP, STATES, UNMARKED};
use mundrefol::{examples, plain, Answer, Contents, Evolution, Frame};

/// What reading a file gives.
struct Read {
    contents: Contents,
    table: Vec<u8>,
    words: Vec<u16>,
    records: Vec<Evolution>,
}

/// Reads a file by the library and by the plain implementation, which must agree.
fn read(file: &[u8]) -> Read {
    let by = |job: plain::Read| {
        let mut table = vec![77; COUPLES];
        let mut words = vec![7_777; STATES];
        let mut records = vec![Evolution { source: 9, target: 9, at: 9, length: 9 }; EVOLUTIONS];
        let contents = job(file, &mut table, &mut words, &mut records);
        Read { contents, table, words, records }
    };
    let (library, plain) = (by(mundrefol::read), by(plain::read));
    assert_eq!(library.contents, plain.contents);
    assert_eq!(library.table, plain.table);
    assert_eq!(library.words, plain.words);
    assert_eq!(library.records, plain.records);
    library
}

/// The answer of reading a file.
fn verdict(file: &File) -> Answer {
    read(&file.bytes()).contents.answer
}

/// Frame and table of a file that reads.
fn machine(file: &File) -> (Frame, Vec<u8>) {
    let Read { contents: Contents { answer, frame, .. }, mut table, .. } = read(&file.bytes());
    assert_eq!(answer, Answer::done(0));
    table.truncate(frame.couples());
    (frame, table)
}

fn ranks(file: &File) -> Vec<u16> {
    let (frame, table) = machine(file);
    let mut ranks = vec![0; table.len()];
    assert_eq!(mundrefol::mark(frame, &table, &mut ranks), Answer::done(0));
    let mut plain_ranks = vec![1; table.len()];
    assert_eq!(plain::mark(frame, &table, &mut plain_ranks), Answer::done(0));
    assert_eq!(ranks, plain_ranks);
    ranks
}

fn run_to(file: &File, couple: usize) -> (Answer, Vec<u8>) {
    let (frame, table) = machine(file);
    let (mut ranks, mut run) = (vec![0; table.len()], vec![99; 100]);
    let answer = mundrefol::run_to(frame, &table, &mut ranks, couple, &mut run);
    let mut plain_run = vec![99; 100];
    let plain = plain::run_to(frame, &table, &mut ranks, couple, &mut plain_run);
    assert_eq!((answer, &run), (plain, &plain_run));
    (answer, run)
}

fn plan_into(file: &File, bytes: usize) -> (Answer, Vec<u8>) {
    let (frame, table) = machine(file);
    let (mut ranks, mut plan) = (vec![0; table.len()], vec![99; bytes]);
    let answer = mundrefol::plan(frame, &table, &mut ranks, &mut plan);
    let mut plain_plan = vec![99; bytes];
    let plain = plain::plan(frame, &table, &mut ranks, &mut plain_plan);
    assert_eq!((answer, &plan), (plain, &plain_plan));
    (answer, plan)
}

#[test]
fn lamp_file() {
    let bytes = examples::lamp().bytes();
    assert_eq!(bytes.len(), 47);
    let offsets = [25, 29, 35, 41].map(u16::to_le_bytes);
    for (entry, offset) in offsets.iter().enumerate() {
        assert_eq!(bytes[6 + 5 * entry..8 + 5 * entry], *offset);
    }
    let Read { contents, table, words, records } = read(&bytes);
    let frame = Frame { inputs: 1, states: 2, starts: POWER_UP, ..Frame::default() };
    let right =
        Contents { answer: Answer::done(0), character: 0, outputs: 1, evolutions: 2, frame };
    assert_eq!(contents, right);
    assert_eq!(table[..5], [0, 1, 0, 1, 77]);
    assert_eq!(words[..3], [0, 1, 7_777]);
    assert_eq!(records[0], Evolution { source: 0, target: 1, at: 44, length: 1 });
    assert_eq!(records[1], Evolution { source: 1, target: 0, at: 45, length: 2 });
    assert_eq!(records[2].at, 9);
}

#[test]
fn lamp_ranks_and_plan() {
    let lamp = examples::lamp();
    assert_eq!(ranks(&lamp), [0, 1, 2, 1]);
    let stored = [1, 0, 0, 2, 0, 0, 1, 3, 0, 0, 1, 0];
    let (answer, plan) = plan_into(&lamp, 13);
    assert_eq!((answer, &plan[..12], plan[12]), (Answer::done(12), &stored[..], 99));
    assert_eq!(plan_into(&lamp, 11), (Answer::refused(16, 12), vec![99; 11]));
}

#[test]
fn gate_moves_and_runs() {
    let gate = examples::gate();
    let (_, table) = machine(&gate);
    assert_eq!([table[4], table[17], table[44]], [1, 2, 0]);
    let (answer, run) = run_to(&gate, 44);
    assert_eq!((answer, &run[..5]), (Answer::done(4), &[8, 10, 8, 12, 99][..]));
    assert_eq!(run_to(&gate, 19).0, Answer::refused(15, 0));
}

#[test]
fn gate_marks() {
    let ranks = ranks(&examples::gate());
    let count = |rank: u16| ranks.iter().filter(|&&it| it == rank).count();
    assert_eq!([0, 1, 2, 3].map(count), [9, 14, 14, 3]);
    let unmarked: Vec<usize> = (0..48).filter(|&couple| ranks[couple] == UNMARKED).collect();
    assert_eq!(unmarked, [19, 23, 25, 26, 27, 29, 30, 31]);
}

/// Source document 002, table 1: s1 to s3 are states 0 to 2, the columns in the order of our settings.
#[test]
fn gate_is_the_published_table() {
    let published = [
        [2, 3, 3, 3, 2, 1, 1, 1, 1, 1, 3, 3, 1, 1, 1, 1],
        [2, 3, 3, 3, 2, 1, 1, 1, 1, 1, 3, 3, 1, 1, 1, 1],
        [3, 3, 3, 3, 2, 1, 1, 1, 3, 3, 3, 3, 1, 1, 1, 1],
    ];
    let (_, table) = machine(&examples::gate());
    let named: Vec<u8> = table.iter().map(|state| state + 1).collect();
    assert_eq!(named, published.concat());
}

/// Source document 001, table IV, with its columns in the order of the page; ranks 9 are unmarked.
#[test]
fn table_iv_is_the_published_table() {
    let columns = [0, 4, 6, 2, 3, 7, 5, 1];
    let published = [
        [(9, 3), (1, 3), (1, 3), (1, 3), (0, 1), (0, 1), (0, 1), (1, 2)],
        [(2, 2), (3, 5), (9, 3), (3, 4), (2, 4), (9, 1), (2, 5), (1, 2)],
        [(2, 3), (1, 3), (1, 3), (1, 3), (2, 1), (2, 1), (2, 1), (3, 2)],
        [(4, 4), (5, 3), (4, 3), (3, 4), (2, 4), (3, 1), (4, 1), (3, 4)],
        [(4, 5), (3, 5), (4, 3), (5, 3), (4, 1), (3, 1), (2, 5), (3, 5)],
    ];
    let file = examples::table_iv();
    let (_, table) = machine(&file);
    let ranks = ranks(&file);
    for (state, row) in published.iter().enumerate() {
        for (&setting, &(rank, to)) in columns.iter().zip(row) {
            let couple = 8 * state + setting;
            assert_eq!(table[couple] + 1, to, "move of couple {couple}");
            let rank = if rank == 9 { UNMARKED } else { rank };
            assert_eq!(ranks[couple], rank, "rank of couple {couple}");
        }
    }
    assert_eq!(ranks.iter().filter(|&&rank| rank != UNMARKED).count(), 37);
}

/// The lamp's refusals and the texts of the table, each as a rest condition of state 0.
#[test]
fn refused_conditions() {
    let with_rest = |inputs: u8, rest: &str| {
        let mut file = File { inputs, ..examples::lamp() };
        file.states[0].rest = rest.to_string();
        verdict(&file)
    };
    assert_eq!(with_rest(1, "1"), Answer::refused(8, 1));
    for text in ["a+", "()", "c"] {
        assert_eq!(with_rest(2, text), Answer::refused(5, 0), "{text}");
    }
    let nested = |count: usize| "(".repeat(count) + "!a" + &")".repeat(count);
    assert_eq!(with_rest(1, &nested(8)), Answer::done(0));
    assert_eq!(with_rest(1, &nested(9)), Answer::refused(5, 0));
}

/// What two conditions say, as the moves of a state 0 that rests where they hold.
#[test]
fn precedence() {
    let held = |inputs: u8, text: &str, setting: usize| {
        let file = File::new(
            inputs,
            1,
            &[(0, text), (1, &format!("!({text})"))],
            &[(0, 1, &format!("!({text})")), (1, 0, text)],
        );
        machine(&file.starts("1")).1[setting] == 0
    };
    assert!(held(3, "a+b.c", 1));
    assert!(!held(2, "!a.b", 0));
    assert!(held(2, "!a.b", 2));
    assert!(!held(3, "(a+b).c", 1));
}

/// The rows on conditions, each asked as an evolution of a file that is its text alone.
#[test]
fn conditions() {
    let holds = |inputs: usize, text: &str, setting: usize| {
        let records = [Evolution { source: 0, target: 1, at: 0, length: text.len() as u8 }];
        let by = |job: fn(&[Evolution], usize, &[u8], usize, usize) -> bool| {
            job(&records, 0, text.as_bytes(), inputs, setting)
        };
        assert_eq!(by(mundrefol::evolution_holds), by(plain::evolution_holds), "{text}");
        by(mundrefol::evolution_holds)
    };
    assert!(holds(3, "a+b.c", 1));
    assert!(!holds(2, "!a.b", 0));
    for text in ["a+", "()", "c"] {
        for setting in 0..4 {
            assert!(!holds(2, text, setting) && !holds(2, &format!("!({text})"), setting));
        }
    }
    let nested = |count: usize| "(".repeat(count) + "a" + &")".repeat(count);
    assert!(holds(1, &nested(8), 1));
    assert!(!holds(1, &nested(9), 1) && !holds(1, &format!("!{}", nested(9)), 0));
}

/// Decision 1: no start, though every state is reached by some sequence of settings.
#[test]
fn reached_without_a_start() {
    let names = ["refused-12-never-reached", "refused-13-no-start"];
    for (name, (number, place)) in names.iter().zip([(12, 2), (13, 0)]) {
        let example = examples::all().into_iter().find(|example| example.name == *name);
        let contents = read(&example.expect("the example is there").bytes).contents;
        let refusal = Answer::refused(number, place);
        assert_eq!(contents, Contents { answer: refusal, ..Contents::default() });
    }
}
