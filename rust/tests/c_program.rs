//! Programs that include the header and link the archive, compiled as C and as C++ and run.

use std::path::{Path, PathBuf};
use std::process::{Command, Output};

const WARNINGS: [&str; 4] = ["-Wall", "-Wextra", "-Werror", "-pedantic"];

/// What `lamp.c` prints.
const LAMP: &str = "table 0 1 0 1
plan 1 0 0 2 0 0 1 3 0 0 1 0
run 0 1 0
readings 0 1 1 0 0
never 1 0 0
starts 3 0 0 1 0
without 0 1 0 1
";

/// What `hands.c` prints: each run of the list as it is stored.
const HANDS: &str = "run 0 3 0 3
multi 1 0 2 0 0 3
multi 2 0 3 0 0 3 0
multi 1 0 3 0 0 3 1
multi 1 0 3 0 0 3 2
multi 2 0 4 0 0 3 0 1
multi 2 0 4 0 0 3 0 2
multi 3 0 4 0 0 3 0 3
readings 0 1 1 3 3
";

/// What `log.c` prints.
const LOG: &str = "log 34 33 32
outputs 33 0 0 33 0 0 0 0 0 0 0 0 0 0 0 33
";

fn assert_success(what: &str, output: &Output) {
    let printed = [&output.stdout[..], &output.stderr[..]].concat();
    assert!(output.status.success(), "{what}: {}", String::from_utf8_lossy(&printed));
}

/// Compiles a program in a language, with warnings as errors, links the archive, and runs it.
fn prints(name: &str, language: &str, printed: &str) {
    let (compiler, standard) = match language {
        "c" => ("cc", "-std=c11"),
        _ => ("c++", "-std=c++17"),
    };
    let package = Path::new(env!("CARGO_MANIFEST_DIR"));
    let program = PathBuf::from(env!("CARGO_TARGET_TMPDIR")).join(format!("{name}-{language}"));
    let mut command = Command::new(compiler);
    command.arg(standard).args(WARNINGS).arg("-I").arg(package.join("../include"));
    let source = package.join(format!("tests/{name}.c"));
    command.args(["-x", language]).arg(source).args(["-x", "none"]);
    command.arg(env!("MUNDREFOL_ARCHIVE")).arg("-o").arg(&program);
    let output = command.output();
    let output =
        output.unwrap_or_else(|error| panic!("this test needs the compiler `{compiler}`: {error}"));
    assert_success(compiler, &output);
    let output = Command::new(&program).output().expect("the compiled program runs");
    assert_success(name, &output);
    assert_eq!(String::from_utf8_lossy(&output.stdout), printed);
}

#[test]
fn lamp_in_c() {
    prints("lamp", "c", LAMP);
}

#[test]
fn lamp_in_cpp() {
    prints("lamp", "c++", LAMP);
}

#[test]
fn hands_in_c() {
    prints("hands", "c", HANDS);
}

#[test]
fn hands_in_cpp() {
    prints("hands", "c++", HANDS);
}

#[test]
fn log_in_c() {
    prints("log", "c", LOG);
}

#[test]
fn log_in_cpp() {
    prints("log", "c++", LOG);
}
