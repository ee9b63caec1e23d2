//! Links the archives that `bench/run` makes of those of `tests/archive` for `sheet_c`,
//! `timed_c` and `federation_c`, and the C side, which gcc compiles here for any x86-64.

use std::env;
use std::path::Path;
use std::process::Command;

/// Runs a command, which has to succeed.
fn run(command: &mut Command) {
    let status = command.status().unwrap_or_else(|error| panic!("{command:?}: {error}"));
    assert!(status.success(), "{command:?}: {status}");
}

/// Compiles `source` into an archive of this name in the folder of the build.
fn compile(source: &Path, include: &Path, name: &str) {
    let made = env::var("OUT_DIR").unwrap();
    let (object, archive) = (Path::new(&made).join(format!("{name}.o")), Path::new(&made).join(format!("lib{name}.a")));
    run(Command::new("gcc").args(["-std=c11", "-O2", "-c", "-I"]).arg(include).arg("-o").arg(&object).arg(source));
    // The code starts at a cache line, as bench/run has it for the proved library.
    run(Command::new("objcopy").args(["--set-section-alignment", ".text=64"]).arg(&object));
    run(Command::new("ar").arg("crs").arg(&archive).arg(&object));
    println!("cargo:rustc-link-search=native={made}");
    println!("cargo:rustc-link-lib=static={name}");
    println!("cargo:rerun-if-changed={}", source.display());
    println!("cargo:rerun-if-changed={}", include.display());
}

fn main() {
    let here = env::var("CARGO_MANIFEST_DIR").unwrap();
    let here = Path::new(&here);
    let archive = here.join("../target/bench");
    println!("cargo:rustc-link-search=native={}", archive.display());
    for name in ["sheet_c", "timed_c", "federation_c"] {
        println!("cargo:rustc-link-lib=static={name}");
        println!("cargo:rerun-if-changed={}", archive.join(format!("lib{name}.a")).display());
    }
    compile(&here.join("src/c_side.c"), &here.join("../include"), "c_side");
}
