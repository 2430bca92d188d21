//! Copies volang's four files to OUT_DIR, with our stand-ins for two children of `optimize` beside them, and
//! writes the file by which the crate includes them. The package `reference` gets the copies with document 02's
//! changes (`patches`), the package `unpatched` gets them byte for byte. The given files are never altered.

mod patches;

use patches::PATCHES;
use std::path::{Path, PathBuf};
use std::{env, fs, process};

/// Names the folder that has volang's `lang/crates`.
const VARIABLE: &str = "VOLANG_SRC";

/// The package that is compiled without document 02's changes.
const UNPATCHED: &str = "unpatched";

/// From volang's source folder to OUT_DIR.
const COPIED: [(&str, &str); 4] = [
    ("lang/crates/vo-codegen/src/optimize.rs", "optimize/mod.rs"),
    ("lang/crates/vo-codegen/src/optimize/pc_map.rs", "optimize/pc_map.rs"),
    ("lang/crates/vo-common-core/src/instruction.rs", "instruction.rs"),
    ("lang/crates/vo-common-core/src/instruction_effects.rs", "instruction_effects.rs"),
];

/// From this crate to OUT_DIR: the children of `optimize` that are stood in for.
const STAND_INS: [(&str, &str); 2] = [
    ("src/optimize/frame.rs", "optimize/frame.rs"),
    ("src/optimize/inline_calls.rs", "optimize/inline_calls.rs"),
];

/// The copied modules and where they stand in OUT_DIR.
const MODULES: [(&str, &str); 3] = [
    ("instruction", "instruction.rs"),
    ("instruction_effects", "instruction_effects.rs"),
    ("optimize", "optimize/mod.rs"),
];

fn main() {
    // Both packages stand side by side; the files are those of `reference`.
    let manifest = PathBuf::from(env::var_os("CARGO_MANIFEST_DIR").unwrap());
    let home = manifest.join("../reference");
    let out = PathBuf::from(env::var_os("OUT_DIR").unwrap());
    println!("cargo:rerun-if-env-changed={VARIABLE}");
    let source = match env::var_os(VARIABLE) {
        Some(folder) => PathBuf::from(folder),
        None => manifest.join("../../../shared/docs/src"),
    };
    fs::create_dir_all(out.join("optimize")).unwrap();
    for (from, to) in COPIED {
        copy(&source.join(from), &out.join(to));
    }
    for (from, to) in STAND_INS {
        copy(&home.join(from), &out.join(to));
    }
    if env::var("CARGO_PKG_NAME").unwrap() != UNPATCHED {
        patch(&out);
    }
    let modules: String = MODULES
        .iter()
        // What goes unused here, or is in another style, is no finding of ours.
        .map(|(module, file)| {
            format!("#[allow(dead_code, clippy::all)]\n#[path = {:?}]\nmod {module};\n", out.join(file))
        })
        .collect();
    fs::write(out.join("modules.rs"), modules).unwrap();
}

/// Makes document 02's changes in the copies.
fn patch(out: &Path) {
    for patch in PATCHES {
        let path = out.join(patch.file);
        let text = fs::read_to_string(&path).unwrap();
        let times = text.matches(patch.old).count();
        if times != 1 {
            eprintln!("a text to be patched occurs {times} times in volang's {}, and not once:", patch.file);
            eprintln!("{}", patch.old);
            process::exit(1);
        }
        fs::write(&path, text.replacen(patch.old, patch.new, 1)).unwrap();
    }
}

fn copy(from: &Path, to: &Path) {
    println!("cargo:rerun-if-changed={}", from.display());
    let written = fs::read(from).and_then(|bytes| fs::write(to, bytes));
    if let Err(error) = written {
        eprintln!("cannot copy {}: {error}", from.display());
        eprintln!("set {VARIABLE} to the folder that has volang's sources (lang/crates/vo-codegen/..),");
        eprintln!("or put them at ../shared/docs/src beside the repository");
        process::exit(1);
    }
}
