//! The command as people run it: each text of tests/command has commands (`$ `), and below each what it prints on
//! standard output, on standard error (`! `) and its exit status (`= `). The commands are run at the repository's
//! root, with $OUT an empty folder.
//!
//! `LAMPRUDA_TRANSCRIPTS=write cargo test -p lampruda` writes the texts anew; read them before you believe them.

use std::path::{Path, PathBuf};
use std::process::{Command, Stdio};
use std::{env, fs};

const ROOT: &str = concat!(env!("CARGO_MANIFEST_DIR"), "/../..");
const TEXTS: &str = concat!(env!("CARGO_MANIFEST_DIR"), "/tests/command");
const VARIABLE: &str = "LAMPRUDA_TRANSCRIPTS";

/// What a shell prints for a command line.
fn transcript(line: &str, out: &Path) -> String {
    let command = Path::new(env!("CARGO_BIN_EXE_lampruda"));
    let folders = command.parent().into_iter().map(PathBuf::from);
    let inherited = env::var_os("PATH").unwrap_or_default();
    let path = env::join_paths(folders.chain(env::split_paths(&inherited))).unwrap();
    let ended = Command::new("sh")
        .args(["-c", line])
        .current_dir(ROOT)
        .env("PATH", path)
        .env("OUT", out)
        .stdin(Stdio::null())
        .output()
        .unwrap();
    let shown = |bytes: &[u8], mark: &str| -> String {
        let text = String::from_utf8_lossy(bytes).replace(&*out.to_string_lossy(), "$OUT");
        text.lines().map(|line| format!("{mark}{}\n", without_time(line))).collect()
    };
    let status = ended.status.code().map_or("no status".into(), |status| status.to_string());
    format!("$ {line}\n{}{}= {status}\n", shown(&ended.stdout, ""), shown(&ended.stderr, "! "))
}

/// A line with T for the time that it tells.
fn without_time(line: &str) -> String {
    let digit = |c: char| c.is_ascii_digit() || c == '.';
    if let Some(head) = line.strip_suffix(" seconds") {
        return format!("{}T seconds", head.trim_end_matches(digit));
    }
    match line.split_once("\"microseconds\":") {
        Some((head, tail)) => format!("{head}\"microseconds\":T{}", tail.trim_start_matches(digit)),
        None => line.into(),
    }
}

/// The text with what its commands print now; the headings (`# `) stay.
fn again(text: &str, out: &Path) -> String {
    let mut made = Vec::new();
    let mut heading = String::new();
    for line in text.lines() {
        if line.starts_with("# ") {
            heading = format!("{line}\n");
        } else if let Some(command) = line.strip_prefix("$ ") {
            made.push(std::mem::take(&mut heading) + &transcript(command, out));
        }
    }
    made.join("\n")
}

#[track_caller]
fn check(name: &str) {
    let file = Path::new(TEXTS).join(name).with_extension("txt");
    let out = Path::new(env!("CARGO_TARGET_TMPDIR")).join(name);
    let _ = fs::remove_dir_all(&out);
    fs::create_dir_all(&out).unwrap();
    let text = fs::read_to_string(&file).unwrap();
    let made = again(&text, &out);
    if env::var_os(VARIABLE).is_some_and(|value| value == "write") {
        fs::write(&file, made).unwrap();
    } else if let Some((told, printed)) = text.lines().zip(made.lines()).find(|(told, made)| told != made) {
        panic!("{}\n  has:     {told}\n  printed: {printed}\n\n{made}", file.display());
    } else {
        assert_eq!(text, made);
    }
}

#[test]
fn usage() {
    check("usage");
}

#[test]
fn pass() {
    check("pass");
}

#[test]
fn clean() {
    check("clean");
}

#[test]
fn list() {
    check("list");
}

#[test]
fn assemble() {
    check("assemble");
}

#[test]
fn disassemble() {
    check("disassemble");
}

#[test]
fn job() {
    check("job");
}

#[test]
fn operand() {
    check("operand");
}

#[test]
fn run() {
    check("run");
}

#[test]
fn charge() {
    check("charge");
}

#[test]
fn short() {
    check("short");
}

/// No subcommand is forgotten here, and none has help that a terminal of 80 columns breaks.
#[test]
fn every_subcommand() {
    let help = |words: &[&str]| {
        let ended = Command::new(env!("CARGO_BIN_EXE_lampruda")).args(words).output().unwrap();
        let text = String::from_utf8(ended.stdout).unwrap();
        assert!(text.lines().all(|line| line.chars().count() <= 80), "{text}");
        text
    };
    let names: Vec<String> = help(&["--help"])
        .lines()
        .filter_map(|line| Some(line.strip_prefix("  ")?.split(' ').next()?.to_string()))
        .collect();
    assert!(names.len() >= 6);
    for name in names {
        assert!(Path::new(TEXTS).join(&name).with_extension("txt").is_file(), "{name} has no text");
        let text = help(&[&name, "--help"]);
        assert!(text.contains(&format!("usage: lampruda {name}")) && text.contains("example: "), "{text}");
    }
}
