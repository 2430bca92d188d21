//! `lampruda disassemble`: the text of a unit.

use super::Command;
use crate::answered::Answered;
use crate::arguments::Arguments;
use crate::console;
use crate::refused::Refused;
use crate::report::report_refused;
use crate::Status;
use lampruda::Workspace;
use unit::{Answer, Unit};

pub const COMMAND: Command = Command {
    name: "disassemble",
    summary: "the text of a unit",
    help: &["Prints the text of a unit; assemble makes the same unit of it again.

usage: lampruda disassemble [UNIT]

example: lampruda disassemble examples/law.unit
"],
    flags: &[],
    values: &[],
    run,
};

fn run(arguments: Arguments) -> Result<Status, String> {
    let input = arguments.input()?;
    if let Some(unit) = Unit::check(&input.bytes) {
        return console::print(text::disassemble(&unit)).map(|()| Status::Done);
    }
    let no_unit = Answered { answer: Answer::NO_UNIT, passes: 1 };
    let refused = Refused::new(&mut Workspace::default(), &input.bytes, &no_unit);
    refused.map_or(Ok(Status::Refused), |refused| report_refused(&input.name, &refused, false))
}
