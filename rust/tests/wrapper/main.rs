//! The script `sheet`: status, standard output and standard error, on the examples and damaged files
//! with the program, and on programs that fail.

#[path = "../cases/mod.rs"]
mod cases;
mod refusals;

use mundrefol::examples;
use std::fs;
use std::os::unix::fs::PermissionsExt;
use std::path::{Path, PathBuf};
use std::process::{Command, Output, Stdio};
use std::sync::{Mutex, MutexGuard, PoisonError};

fn root() -> PathBuf {
    Path::new(env!("CARGO_MANIFEST_DIR")).join("..")
}

/// One executable is written or one program started at a time: a program started while another
/// test writes an executable holds that file open for a moment, and it could not be run.
fn alone() -> MutexGuard<'static, ()> {
    static TURN: Mutex<()> = Mutex::new(());
    TURN.lock().unwrap_or_else(PoisonError::into_inner)
}

fn run(command: &mut Command) -> Output {
    command.stdin(Stdio::null()).stdout(Stdio::piped()).stderr(Stdio::piped());
    let turn = alone();
    let started = command.spawn();
    drop(turn);
    let output = started.and_then(|program| program.wait_with_output());
    output.expect("the script `sheet` runs")
}

fn sheet(root: &Path, arguments: &[&str]) -> Output {
    run(Command::new(root.join("sheet")).args(arguments))
}

fn status(output: &Output) -> i32 {
    output.status.code().expect("the script ends by itself")
}

fn words(output: &Output) -> String {
    String::from_utf8_lossy(&output.stderr).into_owned()
}

#[test]
fn examples_by_the_script() {
    for example in examples::all() {
        let path = root().join("examples").join(example.name);
        let output = sheet(&root(), &[path.to_str().expect("the path is text")]);
        let expected = fs::read(root().join("examples").join(format!("{}.sheet", example.name)));
        assert!(output.stdout == expected.expect("the sheet is there"), "{}", example.name);
        let refused = example.name.starts_with("refused");
        assert_eq!(status(&output), i32::from(refused), "{}: {}", example.name, words(&output));
        assert_eq!(output.stderr.is_empty(), !refused, "{}: {}", example.name, words(&output));
    }
}

#[test]
fn usage() {
    assert_eq!(status(&sheet(&root(), &["--help"])), 0);
    for arguments in [&[][..], &["one", "two"], &["--what"], &["-"], &["no such file"], &["."]] {
        let output = sheet(&root(), arguments);
        assert_eq!(status(&output), 2, "{arguments:?}");
        assert!(output.stdout.is_empty() && !output.stderr.is_empty(), "{arguments:?}");
    }
}

fn write_executable(path: &Path, text: &str) {
    fs::create_dir_all(path.parent().expect("a script has a folder")).expect("the folder is made");
    let _turn = alone();
    fs::write(path, text).expect("the script is written");
    fs::set_permissions(path, fs::Permissions::from_mode(0o755)).expect("the script may run");
}

fn write_script(path: &Path, text: &str) {
    write_executable(path, &format!("#!/bin/sh\n{text}\n"));
}

/// A root of its own with the script, and a program that is this script, for any machine.
fn root_with(name: &str, program: Option<&str>) -> PathBuf {
    let root = PathBuf::from(env!("CARGO_TARGET_TMPDIR")).join(name);
    let _ = fs::remove_dir_all(&root);
    let script = fs::read_to_string(self::root().join("sheet")).expect("the script is there");
    write_executable(&root.join("sheet"), &script);
    write_script(&root.join("rust/emulated/start"), "exec \"$@\"");
    fs::write(root.join("file"), "").expect("the file is written");
    fs::create_dir_all(root.join("crates/sheet")).expect("the folder is made");
    if let Some(text) = program {
        write_script(&root.join("crates/sheet/out/sheet"), text);
    }
    root
}

fn printing(name: &str, printed: &str, end: &str) -> Output {
    let root = root_with(name, Some(&format!("printf '{}'; {end}", printed.replace('\n', "\\n"))));
    sheet(&root, &[root.join("file").to_str().expect("the path is text")])
}

/// Neither a sheet nor a refusal, and nothing of it on standard output.
#[track_caller]
fn assert_failed(output: &Output) {
    assert_eq!(status(output), 2, "{}", words(output));
    assert!(output.stdout.is_empty() && !output.stderr.is_empty(), "{}", words(output));
}

/// A program that fails, stops within a line, prints something else or says something on standard
/// error.
#[test]
fn failing_programs() {
    let lamp = "INPUTS 1 STATES 2 COUPLES 4 MARKED 4\nRANK 0 1\nRANK 1 2\nRANK 2 1\nRUN 1 0\nRUN 2 0 1\nRUN 3 0 1 0\n";
    let whole = printing("whole", lamp, "exit 0");
    assert_eq!((status(&whole), &whole.stdout[..]), (0, lamp.as_bytes()));
    assert_eq!(status(&printing("refusal", "REFUSED 8 1\n", "exit 0")), 1);
    let unread = printing("refusal-5", "REFUSED 5 67 89\n", "exit 0");
    assert!(status(&unread) == 1 && words(&unread).contains(" is refused by 5: "));
    assert!(words(&unread).contains(" does not read at character 89\n"));
    let mut wrong: Vec<&str> = (0..lamp.len()).map(|end| &lamp[..end]).collect();
    wrong.retain(|printed| !printed.ends_with('\n'));
    wrong.extend(["REFUSED 8 1", "REFUSED 8 1\nR", "\n", "SHEET\n", " INPUTS 1\n", "\nINPUTS 1\n"]);
    for (index, printed) in wrong.iter().enumerate() {
        assert_failed(&printing(&format!("wrong-{index}"), printed, "exit 0"));
    }
    for (index, end) in ["exit 3", "kill -9 $$", "echo no >&2", "echo >&2"].iter().enumerate() {
        assert_failed(&printing(&format!("end-{index}"), lamp, end));
        assert_failed(&printing(&format!("refused-end-{index}"), "REFUSED 8 1\n", end));
    }
}

/// Without the program, it is built by `rt run` in `crates/sheet`; without `rt`, or if that fails, status 2.
#[test]
fn building() {
    let path = |tools: &Path| format!("{}:/usr/bin:/bin", tools.display());
    let run = |root: &Path| {
        let mut script = Command::new(root.join("sheet"));
        let output = run(script.arg(root.join("file")).env("PATH", path(&root.join("tools"))));
        (status(&output), String::from_utf8_lossy(&output.stdout).into_owned())
    };
    let missing = root_with("without-rt", None);
    assert_eq!(run(&missing), (2, String::new()));
    let failing = root_with("failing-rt", None);
    write_script(&failing.join("tools/rt"), "echo broken; exit 1");
    assert_eq!(run(&failing), (2, String::new()));
    let lazy = root_with("lazy-rt", None);
    write_script(&lazy.join("tools/rt"), "exit 0");
    assert_eq!(run(&lazy), (2, String::new()));
    let working = root_with("working-rt", None);
    write_script(
        &working.join("tools/rt"),
        "[ \"$*\" = run ] || exit 1
mkdir -p out
printf '#!/bin/sh\\necho REFUSED 1 0\\n' >out/sheet
chmod +x out/sheet
echo noise",
    );
    assert_eq!(run(&working), (1, "REFUSED 1 0\n".to_string()));
    assert_eq!(run(&working), (1, "REFUSED 1 0\n".to_string()));
}
