//! The reference harness as a program.

mod examples;
mod listing;
mod readers;
mod record;
mod survey;

use std::process::ExitCode;

const USAGE: &str = "usage: harness survey [--seed S] [--count N]
       harness readers [--seed S] [--count N]
       harness record [--out FILE | --check]
       harness listing UNIT
       harness listings PROGRAM COUNT
       harness examples [--check]";

fn main() -> ExitCode {
    let arguments: Vec<String> = std::env::args().skip(1).collect();
    let words: Vec<&str> = arguments.iter().map(String::as_str).collect();
    let done = match words.split_first() {
        Some((&"survey", options)) => survey::run(options),
        Some((&"readers", options)) => readers::run(options),
        Some((&"record", options)) => record::run(options),
        Some((&"listing", options)) => listing::run(options),
        Some((&"listings", options)) => listing::compare(options),
        Some((&"examples", options)) => examples::run(options),
        _ => Err(USAGE.into()),
    };
    match done {
        Ok(()) => ExitCode::SUCCESS,
        Err(message) => {
            eprintln!("{message}");
            ExitCode::FAILURE
        }
    }
}
