//! The folder `examples/`: its bytes, its expected sheets, the program `sheet` on them and on
//! generated files, also with little stack, and the words of the script `sheet` on refused ones.

#[path = "../cases/mod.rs"]
mod cases;
mod explained;

use cases::try_cases;
use mundrefol::file::{File, Leaving, State};
use mundrefol::generate::settled_file;
use mundrefol::generate::{damaged, damaged_without_rests, largest_file, largest_without_rests};
use mundrefol::plain::{lines, with_rests, COUPLES, EVOLUTIONS, FILE, INPUTS, LIST, OUTPUTS};
use mundrefol::plain::{PLAN, STATES};
use mundrefol::{examples, plain, Evolution};
use std::collections::BTreeSet;
use std::fs;
use std::io::Write;
use std::path::{Path, PathBuf};
use std::process::{Command, Output, Stdio};

fn root() -> PathBuf {
    Path::new(env!("CARGO_MANIFEST_DIR")).join("..")
}

fn in_folder(name: &str) -> Vec<u8> {
    let path = root().join("examples").join(name);
    fs::read(&path).unwrap_or_else(|error| {
        panic!("{}: {error}; `cargo run --release --bin write_examples` makes it", path.display())
    })
}

/// The program, which `rt run` in `crates/sheet` leaves for x86-64, with a stack of so many KiB if given.
fn program(stack: Option<usize>) -> Command {
    let program = root().join("crates/sheet/out/sheet");
    assert!(program.is_file(), "{}: run `rt run` in crates/sheet first", program.display());
    let native = cfg!(target_arch = "x86_64");
    let mut command = match stack {
        None if native => return Command::new(program),
        Some(_) if native => Command::new("sh"),
        _ => Command::new(root().join("rust/emulated/start")),
    };
    if let Some(stack) = stack {
        let limit = format!("ulimit -c 0 && ulimit -s {stack} && exec \"$0\"");
        let bytes = (stack * 1024).to_string();
        command.args(if native { ["-c", &limit] } else { ["-s", &bytes] });
    }
    command.arg(program);
    command
}

/// How a command ends, and what it prints and says, for a file on standard input.
fn ended(mut command: Command, file: &[u8]) -> Output {
    command.stdin(Stdio::piped()).stdout(Stdio::piped()).stderr(Stdio::piped());
    let mut child = command.spawn().expect("the command runs");
    let mut input = child.stdin.take().expect("standard input is a pipe");
    // A program that refuses a file early need not read all of it.
    let _ = input.write_all(file);
    drop(input);
    child.wait_with_output().expect("the program ends")
}

/// What the program prints for a file on standard input, with a stack of so many KiB if given.
fn printed(stack: Option<usize>, file: &[u8]) -> Vec<u8> {
    let output = ended(program(stack), file);
    let said = String::from_utf8_lossy(&output.stderr);
    assert!(output.status.success(), "the program ended by {}: {said}", output.status);
    output.stdout
}

fn assert_text(name: &str, left: &[u8], right: &[u8]) {
    let (left, right) = (String::from_utf8_lossy(left), String::from_utf8_lossy(right));
    let differs = left.lines().zip(right.lines()).position(|(one, other)| one != other);
    assert!(left == right, "{name}: line {differs:?} differs, or one sheet is longer");
}

#[test]
fn bytes_are_those_of_the_descriptions() {
    for example in examples::all() {
        assert!(in_folder(example.name) == example.bytes, "{} is another file", example.name);
    }
}

#[test]
fn the_folder_holds_nothing_else() {
    let mut named = BTreeSet::from(["README.md".to_string()]);
    for example in examples::all() {
        named.extend([example.name.to_string(), format!("{}.sheet", example.name)]);
    }
    let entries = fs::read_dir(root().join("examples")).expect("the folder is there");
    let found =
        entries.map(|entry| entry.expect("a name").file_name().into_string().expect("text"));
    assert_eq!(found.collect::<BTreeSet<_>>(), named);
}

#[test]
fn sheets_are_those_of_both_implementations() {
    let library =
        plain::Jobs { read: mundrefol::read, plan: mundrefol::plan, list: mundrefol::multi_list };
    for example in examples::all() {
        let sheet = in_folder(&format!("{}.sheet", example.name));
        assert_text(example.name, &plain::sheet(&example.bytes), &sheet);
        assert_text(example.name, &lines(library, &example.bytes), &sheet);
    }
}

#[test]
fn lamp_sheet_is_document_01s() {
    let sheet = "INPUTS 1 STATES 2 COUPLES 4 MARKED 4
RANK 0 1
RANK 1 2
RANK 2 1
RUN 1 0
RUN 2 0 1
RUN 3 0 1 0
";
    assert_text("lamp", &in_folder("lamp.sheet"), sheet.as_bytes());
}

#[test]
fn sheets_without_rest_conditions_are_the_same() {
    for (without, with) in [
        ("cutter-without-rests", "cutter-at-the-top"),
        ("gate-without-rests", "gate"),
        ("lamp-without-rests", "lamp"),
    ] {
        let sheet = |name: &str| in_folder(&format!("{name}.sheet"));
        assert_text(without, &sheet(without), &sheet(with));
    }
}

/// After the plan, the gate's list: from setting 8 to 0, and on to each that single changes do not reach.
#[test]
fn gate_sheet_ends_with_its_list() {
    let multi = [3, 7, 9, 10, 11, 13, 14, 15].map(|setting| format!("MULTI 1 8 0 {setting}\n"));
    let sheet = String::from_utf8(in_folder("gate.sheet")).expect("a sheet is text");
    assert!(sheet.ends_with(&format!("\nRUN 29 9 11 15\n{}", multi.concat())), "{sheet}");
}

/// A ring of states that step on when a, b and c are all on or all off; g and h only change together.
/// Its plan and its list are both too long.
fn long_plan_and_list() -> File {
    let step = |state: usize| if state.is_multiple_of(2) { "a.b.c" } else { "!a.!b.!c" };
    let rest = |state: usize| State { word: state as u16, rest: format!("!({})", step(state)) };
    let leaving = |state: usize| Leaving {
        source: state as u8,
        target: ((state + 1) % STATES) as u8,
        condition: step(state).to_string(),
    };
    let bare = File::new(INPUTS as u8, OUTPUTS as u8, &[], &[]).never("g.!h+!g.h");
    let states = (0..STATES).map(rest).collect();
    File { states, evolutions: (0..STATES).map(leaving).collect(), ..bare }
}

/// Where neither fits, the 16 is that of the plan.
#[test]
fn the_plans_refusal_comes_first() {
    let file = long_plan_and_list().bytes();
    let mut table = [0; COUPLES];
    let mut records = [Evolution::default(); EVOLUTIONS];
    let frame = mundrefol::read(&file, &mut table, &mut [0; STATES], &mut records).frame;
    let by = |job: plain::Write| job(frame, &table, &mut [0; COUPLES], &mut []);
    let [plan, list] = [mundrefol::plan, mundrefol::multi_list].map(by);
    assert_eq!([plan.number, list.number], [16, 16]);
    assert!(plan.place > PLAN && list.place > LIST && plan != list);
    let refusal = format!("REFUSED 16 {}\n", plan.place);
    assert_text("both long", &plain::sheet(&file), refusal.as_bytes());
    assert_text("both long", &printed(None, &file), refusal.as_bytes());
}

/// Each refusal that a file can meet in the program has an example.
#[test]
fn every_refusal_of_the_program_has_an_example() {
    let numbers: BTreeSet<String> = examples::all()
        .iter()
        .map(|example| String::from_utf8(plain::sheet(&example.bytes)).expect("a sheet is text"))
        .filter_map(|sheet| sheet.strip_prefix("REFUSED ").map(str::to_string))
        .filter_map(|refusal| refusal.split(' ').next().map(str::to_string))
        .collect();
    let expected = (1..=13).filter(|&number| number != 3).chain([16]);
    assert_eq!(numbers, expected.map(|number| number.to_string()).collect());
}

#[test]
fn the_program_prints_the_expected_sheets() {
    for example in examples::all() {
        let sheet = in_folder(&format!("{}.sheet", example.name));
        assert_text(example.name, &printed(None, &example.bytes), &sheet);
    }
}

#[test]
fn the_program_prints_the_sheets_of_generated_files() {
    try_cases("sheet", 400, &[0, 1], |random| {
        let sound = random.once_in(2);
        let file = if sound { settled_file(random).bytes() } else { damaged(random) };
        let sheet = plain::sheet(&file);
        assert_text("sheet", &printed(None, &file), &sheet);
        usize::from(sheet.starts_with(b"REFUSED"))
    });
}

/// Of files without rest conditions, and of the SEQ1 files with these written out.
#[test]
fn the_program_prints_the_same_sheet_with_rest_conditions() {
    try_cases("sheet without rests", 150, &["alone", "sheet", "refusal"], |random| {
        let sound = random.once_in(2);
        let file = if sound {
            settled_file(random).without_rests().bytes()
        } else {
            damaged_without_rests(random)
        };
        let sheet = plain::sheet(&file);
        assert_text("without", &printed(None, &file), &sheet);
        let with = with_rests(&file).ok().filter(|_| !sheet.starts_with(b"REFUSED 5 "));
        let Some(with) = with else {
            return "alone";
        };
        assert_text("with", &printed(None, &with), &sheet);
        if sheet.starts_with(b"REFUSED") {
            "refusal"
        } else {
            "sheet"
        }
    });
}

/// With a stack of 1 MiB: every example, and the largest files. With a quarter of that it fails, so the
/// limit is felt.
#[test]
fn the_program_needs_little_stack() {
    let little = Some(1024);
    for example in examples::all() {
        let sheet = in_folder(&format!("{}.sheet", example.name));
        assert_text(example.name, &printed(little, &example.bytes), &sheet);
    }
    for largest in [largest_file(FILE), largest_without_rests(FILE)].map(|file| file.bytes()) {
        assert_text("largest", &printed(little, &largest), &plain::sheet(&largest));
        assert!(!ended(program(Some(256)), &largest).status.success());
    }
}

/// A file over 65,535 bytes is refused by 1, however long.
#[test]
fn the_program_refuses_long_files() {
    for length in [65_535, 65_536, 65_537, 200_000] {
        let mut file = examples::lamp().bytes();
        file.resize(length, b'a');
        assert_text("long file", &printed(None, &file), b"REFUSED 1 0\n");
    }
}
