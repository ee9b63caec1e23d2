//! Links the archives that `tests/archive` makes of `sheet_c`, `timed_c`,
//! `federation_c` and `frames`.

use std::env;
use std::path::Path;

fn main() {
    let here = env::var("CARGO_MANIFEST_DIR").unwrap();
    let archive = Path::new(&here).join("../../target/staticlib");
    println!("cargo:rustc-link-search=native={}", archive.display());
    for name in ["sheet_c", "timed_c", "federation_c", "frames"] {
        println!("cargo:rustc-link-lib=static={name}");
        println!("cargo:rerun-if-changed={}", archive.join(format!("lib{name}.a")).display());
    }
}
