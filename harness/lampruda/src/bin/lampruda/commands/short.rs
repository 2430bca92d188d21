//! `lampruda short`: all short functions, by number.

use super::Command;
use crate::arguments::Arguments;
use crate::console;
use crate::input::{self, Input};
use crate::Status;
use lampruda::{Answer, Workspace, SHORT_COUNT};
use unit::Unit;

pub const COMMAND: Command = Command {
    name: "short",
    summary: "a short function by its number, its number, or a survey of all",
    help: &["Prints the text of a short function, by its number. They are the 346,176
functions of 2, 3 and 4 instructions out of 24, over two Value slots, numbered
from 0: shorter first, then by the earliest differing instruction. The 24 are

  LoadInt (a, then value 0 or 1), Copy (a, b), AddI (a, b, c),
  JumpIf (a, then distance -1 or 1), Jump (-1 or 1), Return 0 with count 0 or 1

usage: lampruda short [-o FILE] NUMBER
       lampruda short --number FILE
       lampruda short --survey

  -o FILE        writes the unit to FILE, and prints no text
  --number FILE  prints the number of the unit in FILE, or none
  --survey       runs one pass over each and prints how many were unchanged,
                 rewritten and refused

Exit status 1 says that there is no such number or no such unit.

example: lampruda short 14400
"],
    flags: &["--survey"],
    values: &["-o", "--number"],
    run,
};

/// The survey shows how far it is after so many functions.
const SHOWN: u32 = 1_024;

fn run(arguments: Arguments) -> Result<Status, String> {
    if arguments.has("--survey") {
        return survey();
    }
    if let Some(file) = arguments.value("--number") {
        return match lampruda::short_number(&Input::file(file)?.bytes) {
            Some(number) => console::print(format!("{number}\n")).map(|()| Status::Done),
            None => console::print("none\n").map(|()| Status::Refused),
        };
    }
    let [number] = arguments.words("name a number, from 0 to 346175")?;
    let number: u64 = number.parse().map_err(|_| arguments.usage(&format!("{number} is no number")))?;
    let found = u32::try_from(number).ok().and_then(lampruda::short_unit);
    let Some(bytes) = found else {
        eprintln!("lampruda short: the last number is {}", SHORT_COUNT - 1);
        return Ok(Status::Refused);
    };
    match arguments.value("-o") {
        Some(file) => input::write(Some(file), &bytes).map(|_| Status::Done),
        None => {
            let unit = Unit::check(&bytes).ok_or("the library made no unit")?;
            console::print(text::disassemble(&unit)).map(|()| Status::Done)
        }
    }
}

fn survey() -> Result<Status, String> {
    let mut workspace = Workspace::default();
    let (mut unchanged, mut rewritten, mut refused) = (0, 0, 0);
    for number in 0..SHORT_COUNT {
        let unit = lampruda::short_unit(number).ok_or("the library made no unit")?;
        match workspace.pass(&unit) {
            Answer::Unchanged => unchanged += 1,
            Answer::Rewritten(_) => rewritten += 1,
            Answer::Refused { .. } => refused += 1,
        }
        let done = number + 1;
        if done % SHOWN == 0 || done == SHORT_COUNT {
            console::show(&format!("{done} of {SHORT_COUNT}"), done == SHORT_COUNT);
        }
    }
    console::print(format!("unchanged {unchanged}\nrewritten {rewritten}\nrefused {refused}\n"))?;
    Ok(Status::Done)
}
