//! The proved library beside the reference.

mod arena;
mod bench;
mod charge;
mod chart;
mod compare;
mod counts;
mod desk;
mod desk_bench;
mod differences;
mod faults;
mod fuzz;
mod guarded;
mod lay_out;
mod likewise;
mod mutate;
mod never_above;
mod operand;
mod options;
mod parallel;
mod run;
mod short;
mod table;
mod tally;

use options::Options;
use std::process::ExitCode;

const USAGE: &str = "usage: beside compare [--seed S] [--count N] [--profile NAME] [--small-world]
       beside bench [--seed S] [--longest N] [--svg FILE] | --unit FILE | --desk
       beside fuzz [--seed S] [--count N] [--from INDEX] [--seconds T]
       beside operand [--seed S] [--count N]
       beside short [--seed S] [--count N]
       beside run [--seed S] [--count N] [--from INDEX]
       beside charge [--seed S] [--count N] [--from INDEX]
       beside likewise [--seed S] [--count N] [--from INDEX]
       beside never-above [--seed S] [--count N] [--from INDEX]
       beside lay-out [--seed S] [--count N] [--from INDEX]";

fn main() -> ExitCode {
    let arguments: Vec<String> = std::env::args().skip(1).collect();
    let done = match arguments.split_first() {
        Some((command, rest)) => Options::parse(rest).and_then(|options| match command.as_str() {
            "compare" => compare::run(options),
            "bench" => bench::run(options),
            "fuzz" => fuzz::run(options),
            "operand" => operand::run(options),
            "short" => short::run(options),
            "run" => run::run(options),
            "charge" => charge::run(options),
            "likewise" => likewise::run(options),
            "never-above" => never_above::run(options),
            "lay-out" => lay_out::run(options),
            _ => Err(USAGE.into()),
        }),
        None => Err(USAGE.into()),
    };
    match done {
        Ok(()) => ExitCode::SUCCESS,
        Err(message) => {
            eprintln!("{message}");
            ExitCode::FAILURE
        }
    }
}
