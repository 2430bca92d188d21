//! `lampruda`: the library as one command, for people who write laws.

mod answered;
mod arguments;
mod bill;
mod commands;
mod console;
mod desk;
mod input;
mod json;
mod refused;
mod report;
mod table;
mod trace;
mod word;

use arguments::Arguments;
use commands::COMMANDS;
use std::env;
use std::ffi::OsString;
use std::process::ExitCode;

/// How a command ended that could do its work; what it could not read or did not understand is an `Err`, and
/// ends with 2.
#[derive(Clone, Copy, Debug, Eq, Ord, PartialEq, PartialOrd)]
pub enum Status {
    Done = 0,
    Refused = 1,
    Unreadable = 2,
}

fn main() -> ExitCode {
    let words: Vec<OsString> = env::args_os().skip(1).collect();
    let status = run(&words).unwrap_or_else(|message| {
        eprintln!("lampruda: {message}");
        Status::Unreadable
    });
    ExitCode::from(status as u8)
}

fn run(words: &[OsString]) -> Result<Status, String> {
    let Some((name, rest)) = words.split_first() else {
        eprint!("{}", usage());
        return Ok(Status::Unreadable);
    };
    let is_help = |word: &OsString| word == "--help" || word == "-h";
    if name == "--version" {
        return console::print(version()).map(|()| Status::Done);
    }
    if is_help(name) {
        return console::print(usage()).map(|()| Status::Done);
    }
    let command = COMMANDS.into_iter().find(|command| name == command.name);
    let unknown = || format!("there is no command {}; see lampruda --help", name.to_string_lossy());
    let command = command.ok_or_else(unknown)?;
    if rest.iter().any(is_help) {
        return console::print(command.help.concat()).map(|()| Status::Done);
    }
    (command.run)(Arguments::parse(command, rest)?)
}

fn version() -> String {
    format!("lampruda {}\n", env!("CARGO_PKG_VERSION"))
}

fn usage() -> String {
    let commands: String =
        COMMANDS.iter().map(|command| format!("  {:<13}{}\n", command.name, command.summary)).collect();
    format!(
        "A proved optimizer for functions of bytecode.

usage: lampruda COMMAND [OPTIONS] [FILE]

{commands}
lampruda COMMAND --help says more and has an example. Where no FILE is named,
or -, standard input is read. Exit status: 0 done, 1 refused, 2 wrong usage or a
file that cannot be read or written.
"
    )
}
