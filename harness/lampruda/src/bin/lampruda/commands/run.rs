//! `lampruda run`: a law at the desk.

use super::Command;
use crate::arguments::Arguments;
use crate::console::{self, Ink};
use crate::desk::{self, Start};
use crate::json::Json;
use crate::report::report_refused;
use crate::Status;

pub const COMMAND: Command = Command {
    name: "run",
    summary: "runs a law at the desk: how it stops, with which words, its steps",
    help: &[
        "Runs the function of a unit at the desk, without a solver, and says how it
stopped: it returned, it panicked, it ran out at the end of the code, it came to
an instruction that the desk does not execute, or it reached the limit. It
executes

  LoadInt, LoadConst but for strings, Copy, CopyN, Hint, Jump, JumpIf,
  JumpIfNot, AddI SubI MulI NegI And Or Xor AndNot Not BoolNot Trunc,
  EqI NeI LtI LtU LeI LeU GtI GtU GeI GeU, Return, Panic

Below the answer stand the words that were returned or that the panic read, in
four readings; for the other ways to stop, those of the slots that were altered.

usage: lampruda run [--slot K=WORD ..] [--frame FILE] [--limit N] [--trace]
                    [--json] [UNIT]

",
        desk::OPTIONS,
        "  --json         prints the answer as JSON, words as texts; with --trace a line
                 of JSON for each step, and the answer as the last line
",
        desk::WORDS,
        "example: lampruda run --slot 0=4 --slot 1=1 --slot 2=2 examples/increment.unit
",
    ],
    flags: &["--trace", "--json"],
    values: &["--slot", "--frame", "--limit"],
    run,
};

fn run(arguments: Arguments) -> Result<Status, String> {
    let start = Start::read(&arguments)?;
    let json = arguments.has("--json");
    let mut frame = start.frame.clone();
    let stop = if arguments.has("--trace") {
        match start.print_trace(&mut frame, json)? {
            Some(stop) => stop,
            None => return Ok(Status::Done),
        }
    } else {
        lampruda::run(&start.input.bytes, &mut frame, start.limit)
    };
    let stopped = match start.stopped(stop, frame) {
        Ok(stopped) => stopped,
        Err(refused) => return report_refused(&start.input.name, &refused, json),
    };
    let text = if json {
        let mut fields = vec![("file", start.input.name.as_str().into())];
        fields.extend(stopped.json());
        Json::Object(fields).line()
    } else {
        let ink = Ink::out();
        stopped.answer(ink) + &stopped.words(ink)
    };
    console::print(text).map(|()| Status::Done)
}
