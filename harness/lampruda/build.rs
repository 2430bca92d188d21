//! Links the archive of the proved library.

use std::path::PathBuf;
use std::{env, process};

/// Names the folder that has the archive, where it is another than crates/host/out.
const VARIABLE: &str = "LAMPRUDA_LIB";

fn main() {
    let manifest = PathBuf::from(env::var_os("CARGO_MANIFEST_DIR").unwrap());
    println!("cargo:rerun-if-env-changed={VARIABLE}");
    let folder = match env::var_os(VARIABLE) {
        Some(folder) => PathBuf::from(folder),
        None => manifest.join("../../crates/host/out"),
    };
    let archive = folder.join("libhost.a");
    println!("cargo:rerun-if-changed={}", archive.display());
    if !archive.is_file() {
        eprintln!("{} is missing: run `rt lib` in crates/host,", archive.display());
        eprintln!("or set {VARIABLE} to the folder that has libhost.a");
        process::exit(1);
    }
    println!("cargo:rustc-link-search=native={}", folder.display());
    println!("cargo:rustc-link-lib=static=host");
}
