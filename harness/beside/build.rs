//! Compiles the plain interpreter that the desk run is timed against, by the system's C compiler.

use std::env;
use std::path::PathBuf;
use std::process::{self, Command};

const SOURCE: &str = "src/plain.c";

fn main() {
    println!("cargo:rerun-if-changed={SOURCE}");
    println!("cargo:rerun-if-env-changed=CC");
    let compiler = env::var("CC").unwrap_or_else(|_| "cc".into());
    let object = PathBuf::from(env::var_os("OUT_DIR").unwrap()).join("plain.o");
    let flags = ["-std=c99", "-Wall", "-Wextra", "-O2", "-fPIC"];
    // Left to the compiler, its loop takes up to one and a half times as long: docs/BENCHMARK.md.
    let aligned = ["-falign-functions=64", "-falign-labels=16"];
    let compiled =
        Command::new(&compiler).args(flags).args(aligned).args(["-c", SOURCE, "-o"]).arg(&object).status();
    match compiled {
        Ok(status) if status.success() => println!("cargo:rustc-link-arg={}", object.display()),
        failed => {
            eprintln!("{compiler} does not compile {SOURCE}: {failed:?}");
            process::exit(1);
        }
    }
}
