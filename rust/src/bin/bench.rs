//! Times the library against the independent implementation on the same inputs, in one run.

use mundrefol::generate::{largest_file, largest_without_rests, list_of, longest_table, plan_of};
use mundrefol::generate::{widest_table, Table};
use mundrefol::plain::{self, lines, queue, Jobs, RunTo, Write};
use mundrefol::plain::{COUPLES, ENTRIES, EVOLUTIONS, FILE, INPUTS, STATES, UNMARKED};
use mundrefol::{examples, Contents, Entry, Evolution, Frame, Log, Noted};
use std::fs::{self, File};
use std::hint::black_box;
use std::io::{self, Read, Write as _};
use std::path::Path;
use std::process::{self, Command, Stdio};
use std::time::{Duration, Instant};

/// A job is repeated for at least this long, in rounds that take turns with its rival.
const TIME: Duration = Duration::from_millis(400);
const ROUNDS: usize = 8;

/// What a sheet is made of, by each; both find multiple changes by the same plan of work.
const LIBRARY: Jobs =
    Jobs { read: mundrefol::read, plan: mundrefol::plan, list: mundrefol::multi_list };
const PLAIN: Jobs = Jobs { read: plain::read, plan: plain::plan, list: queue::multi_list };

/// With this argument it prints the sheet of the file on standard input, by the independent implementation.
const SHEET: &str = "--sheet";

fn main() {
    if std::env::args().any(|argument| argument == SHEET) {
        return print_sheet();
    }
    println!("Best time of one call over {ROUNDS} rounds; buffers are not cleared between calls.");
    println!(
        "sheet: reading, plan, list and lines in memory; the lines are written by the same Rust code."
    );
    println!("multi run, list: the Rust by the library's plan of work, one queue with two heads.");
    println!("shorten: the plan is copied into the buffer before each call, by both.");
    println!("program: a process that reads the file and prints its whole sheet.");
    bench_file("lamp", &examples::lamp().bytes());
    bench_file("gate", &examples::gate().bytes());
    bench_file("all marked", &examples::counter(INPUTS as u8, STATES as u8 / 2).bytes());
    let largest = bench_file("largest", &largest_file(FILE).bytes());
    bench_sizes("largest", &largest);
    bench_reading("largest without rest conditions", &largest_without_rests(FILE).bytes());
    for (name, table) in [("longest runs", longest_table()), ("most changes", widest_table())] {
        head(name, "", &table);
        bench_table(&table);
    }
    bench_log();
}

/// The least time of one call of `job`, over as many calls as fit.
fn best_of(job: &mut dyn FnMut(), time: Duration) -> Duration {
    let begin = Instant::now();
    let mut best = Duration::MAX;
    while begin.elapsed() < time {
        let start = Instant::now();
        job();
        let once = start.elapsed();
        let calls = (Duration::from_micros(200).as_nanos() / once.as_nanos().max(1)) as u32;
        let calls = calls.clamp(1, 10_000);
        let start = Instant::now();
        for _ in 0..calls {
            job();
        }
        best = best.min(once).min(start.elapsed() / calls);
    }
    best
}

/// Prints the row of a job: library, independent Rust, ratio.
fn row(job: &str, library: &mut dyn FnMut(), plain: &mut dyn FnMut()) {
    let (mut ours, mut theirs) = (Duration::MAX, Duration::MAX);
    for _ in 0..ROUNDS {
        ours = ours.min(best_of(library, TIME / ROUNDS as u32));
        theirs = theirs.min(best_of(plain, TIME / ROUNDS as u32));
    }
    let ratio = ours.as_secs_f64() / theirs.as_secs_f64();
    println!("{job:<10}{:>16}{:>16}{ratio:>8.2}", shown(ours), shown(theirs));
}

fn shown(time: Duration) -> String {
    format!("{:.3} us", time.as_secs_f64() * 1e6)
}

/// Buffers for reading a file.
struct Buffers {
    table: Vec<u8>,
    words: Vec<u16>,
    records: Vec<Evolution>,
}

impl Buffers {
    fn new() -> Buffers {
        Buffers {
            table: vec![0; COUPLES],
            words: vec![0; STATES],
            records: vec![Evolution::default(); EVOLUTIONS],
        }
    }
}

/// Prints the head of rows.
fn columns(first: &str) {
    println!("{first:<10}{:>16}{:>16}{:>8}", "library", "Rust", "ratio");
}

/// Prints what an input is, and the head of its rows.
fn head(name: &str, size: &str, table: &Table) {
    let Frame { inputs, states, .. } = table.frame;
    let mut ranks = vec![0; table.moves.len()];
    let plan = plain::plan(table.frame, &table.moves, &mut ranks, &mut []).place;
    let highest = ranks.iter().filter(|&&rank| rank != UNMARKED).max().expect("a start is marked");
    let list = list_of(table).len();
    println!("\n{name}: {inputs} inputs, {states} states, {size}highest rank {highest}, plan of {plan} bytes, list of {list}");
    columns("job");
}

fn bench_file(name: &str, file: &[u8]) -> Table {
    let table = bench_reading(name, file);
    bench_table(&table);
    row("sheet", &mut || drop(black_box(lines(LIBRARY, black_box(file)))), &mut || {
        drop(black_box(lines(PLAIN, black_box(file))))
    });
    bench_program(file);
    table
}

/// Reading a file, and what it is read to.
fn bench_reading(name: &str, file: &[u8]) -> Table {
    let (mut ours, mut theirs) = (Buffers::new(), Buffers::new());
    let contents = plain::read(file, &mut theirs.table, &mut theirs.words, &mut theirs.records);
    let Contents { answer, evolutions, frame, .. } = contents;
    assert_eq!(answer.number, 0);
    let table = Table { frame, moves: theirs.table[..frame.couples()].to_vec() };
    head(name, &format!("{evolutions} evolutions, {} bytes, ", file.len()), &table);
    let mut library = || {
        black_box(mundrefol::read(
            black_box(file),
            &mut ours.table,
            &mut ours.words,
            &mut ours.records,
        ));
    };
    let mut independent = || {
        black_box(plain::read(
            black_box(file),
            &mut theirs.table,
            &mut theirs.words,
            &mut theirs.records,
        ));
    };
    row("reading", &mut library, &mut independent);
    table
}

fn print_sheet() {
    let mut file = Vec::new();
    io::stdin().read_to_end(&mut file).expect("standard input is read");
    io::stdout().write_all(&lines(PLAIN, &file)).expect("standard output is written");
}

/// The program `sheet` against this one with the argument `--sheet`.
fn bench_program(file: &[u8]) {
    let program = Path::new(env!("CARGO_MANIFEST_DIR")).join("../crates/sheet/out/sheet");
    if cfg!(not(target_arch = "x86_64")) {
        println!("program   crates/sheet/out/sheet is for x86-64, this machine is not");
        return;
    }
    if !program.exists() {
        println!("program   crates/sheet/out/sheet is missing: run `rt run` in crates/sheet");
        return;
    }
    let path = std::env::temp_dir().join(format!("mundrefol-bench-{}", process::id()));
    fs::write(&path, file).expect("the file is written");
    let run = |command: &mut Command| {
        let input = File::open(&path).expect("the file is there");
        let status = command.stdin(input).stdout(Stdio::null()).status();
        assert!(status.expect("the program runs").success());
    };
    let own = std::env::current_exe().expect("this program has a path");
    let (mut ours, mut theirs) = (Command::new(program), Command::new(own));
    theirs.arg(SHEET);
    row("program", &mut || run(&mut ours), &mut || run(&mut theirs));
    fs::remove_file(&path).expect("the file is removed");
}

fn bench_table(table: &Table) {
    let Table { frame, ref moves } = *table;
    let (mut ours, mut theirs) = (vec![0; moves.len()], vec![0; moves.len()]);
    let mut library = || {
        black_box(mundrefol::mark(frame, black_box(moves), &mut ours));
    };
    let mut independent = || {
        black_box(plain::mark(frame, black_box(moves), &mut theirs));
    };
    row("marking", &mut library, &mut independent);
    let ranked = (0..theirs.len()).filter(|&couple| theirs[couple] != UNMARKED);
    let farthest = ranked.max_by_key(|&couple| theirs[couple]).expect("some couple is marked");
    let unranked = (0..theirs.len()).rfind(|&couple| theirs[couple] == UNMARKED);
    bench_write("plan", table, mundrefol::plan, plain::plan);
    bench_write("list", table, mundrefol::multi_list, queue::multi_list);
    bench_shorten("shorten", table, &plan_of(table));
    let run = bench_run("run", table, farthest, mundrefol::run_to, plain::run_to);
    let couple = unranked.unwrap_or(farthest);
    bench_run("multi run", table, couple, mundrefol::multi_run_to, queue::multi_run_to);
    bench_readings(table, &run);
}

/// The plan or the list.
fn bench_write(job: &str, table: &Table, library: Write, plain: Write) {
    let Table { frame, ref moves } = *table;
    let mut ranks = vec![0; moves.len()];
    let needed = plain(frame, moves, &mut ranks, &mut []).place;
    let (mut ours, mut theirs) = (vec![0; needed], vec![0; needed]);
    let (mut our_ranks, mut their_ranks) = (ranks.clone(), ranks);
    let mut library = || {
        black_box(library(frame, black_box(moves), &mut our_ranks, &mut ours));
    };
    let mut independent = || {
        black_box(plain(frame, black_box(moves), &mut their_ranks, &mut theirs));
    };
    row(job, &mut library, &mut independent);
}

fn bench_shorten(job: &str, table: &Table, plan: &[u8]) {
    let Table { frame, ref moves } = *table;
    let (mut ours, mut theirs) = (plan.to_vec(), plan.to_vec());
    let mut library = || {
        ours.copy_from_slice(black_box(plan));
        black_box(mundrefol::shorten(frame, black_box(moves), &mut ours));
    };
    let mut independent = || {
        theirs.copy_from_slice(black_box(plan));
        black_box(plain::shorten(frame, black_box(moves), &mut theirs));
    };
    row(job, &mut library, &mut independent);
}

/// The plan of a table again and again, shortened: the time by its bytes.
fn bench_sizes(name: &str, table: &Table) {
    println!("\n{name}: its plan again and again, shortened");
    columns("bytes");
    let plan = plan_of(table);
    for bytes in [1_200_000, 12_000_000, 24_000_000] {
        let plan = plan.repeat(bytes / plan.len());
        bench_shorten(&plan.len().to_string(), table, &plan);
    }
}

/// The run to a couple.
fn bench_run(job: &str, table: &Table, couple: usize, library: RunTo, plain: RunTo) -> Vec<u8> {
    let Table { frame, ref moves } = *table;
    let (mut our_ranks, mut ours) = (vec![0; moves.len()], vec![0; COUPLES]);
    let (mut their_ranks, mut theirs) = (our_ranks.clone(), ours.clone());
    let needed = plain(frame, moves, &mut their_ranks, couple, &mut theirs).place;
    let mut library = || {
        black_box(library(frame, black_box(moves), &mut our_ranks, couple, &mut ours));
    };
    let mut independent = || {
        black_box(plain(frame, black_box(moves), &mut their_ranks, couple, &mut theirs));
    };
    row(job, &mut library, &mut independent);
    theirs.truncate(needed);
    theirs
}

fn bench_readings(table: &Table, run: &[u8]) {
    let Table { frame, ref moves } = *table;
    let words: Vec<u16> = (0..frame.states as u16).collect();
    let mut ours = vec![0; 2 * run.len() - 1];
    let mut theirs = ours.clone();
    let mut library = || {
        let (moves, run) = (black_box(moves), black_box(run));
        black_box(mundrefol::expected(frame, moves, &words, run, &mut ours));
    };
    let mut independent = || {
        let (moves, run) = (black_box(moves), black_box(run));
        black_box(plain::expected(frame, moves, &words, run, &mut theirs));
    };
    row("readings", &mut library, &mut independent);
}

/// A reading that differs in every output, in a fresh log and in one that has kept all it can.
fn bench_log() {
    println!("\nlog: a differing reading noted; the log is copied before each call, by both");
    columns("kept");
    let reading = Entry { run: 1, change: 1, second: true, expected: 0, seen: u16::MAX };
    let mut full = Log::default();
    for _ in 0..ENTRIES {
        plain::update(&mut full, reading);
    }
    for log in [Log::default(), full] {
        let note = |update: fn(&mut Log, Entry) -> Noted| {
            let mut log = log;
            black_box(update(black_box(&mut log), black_box(reading)));
        };
        row(&log.kept.to_string(), &mut || note(mundrefol::update), &mut || note(plain::update));
    }
}
