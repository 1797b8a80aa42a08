//! Links the sheet maker's archive, which the checker leaves beside the crate `abi` for x86-64; on
//! another machine the one that stands for it, which `emulated/build` makes, or with `MUNDREFOL_NATIVE`
//! set the one that `emulated/native` compiles for that machine.

use std::env;
use std::fs;
use std::path::{Path, PathBuf};
use std::process::exit;
use std::time::SystemTime;

const ARCHIVE: &str = "libabi.a";
const NATIVE: &str = "MUNDREFOL_NATIVE";

/// When a file was written, or the end of the build: `how` makes the file.
fn written(file: &Path, how: &str) -> SystemTime {
    println!("cargo:rerun-if-changed={}", file.display());
    let written = fs::metadata(file).and_then(|data| data.modified());
    written.unwrap_or_else(|_| {
        eprintln!("{} is missing: run `{how}` first, from the repository root", file.display());
        exit(1);
    })
}

fn main() {
    let package = env::var("CARGO_MANIFEST_DIR").expect("cargo names the package's folder");
    let root = PathBuf::from(package).join("..");
    println!("cargo:rerun-if-changed=build.rs");
    println!("cargo:rerun-if-env-changed={NATIVE}");
    let mut folder = root.join("crates/abi/out");
    let proved = written(&folder.join(ARCHIVE), "cd crates/abi && rt lib");
    if env::var("CARGO_CFG_TARGET_ARCH").as_deref() != Ok("x86_64") {
        let (made, how) = match env::var_os(NATIVE) {
            None => ("emulated", "rust/emulated/build"),
            Some(_) => ("native", "rust/emulated/native"),
        };
        folder = root.join("target").join(made);
        if written(&folder.join(ARCHIVE), how) < proved {
            eprintln!("{} is out of date: run `{how}` again", folder.display());
            exit(1);
        }
    }
    println!("cargo:rustc-env=MUNDREFOL_ARCHIVE={}", folder.join(ARCHIVE).display());
    println!("cargo:rustc-link-search=native={}", folder.display());
    println!("cargo:rustc-link-lib=static=abi");
}
