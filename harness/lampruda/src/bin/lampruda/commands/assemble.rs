//! `lampruda assemble`: the unit of a text.

use super::Command;
use crate::arguments::Arguments;
use crate::input;
use crate::Status;
use text::Error;
use unit::Unit;

pub const COMMAND: Command = Command {
    name: "assemble",
    summary: "the unit of a text",
    help: &[
        "Makes the unit of a text; disassemble gives the text of any unit.

usage: lampruda assemble [-o FILE] [TEXT]

  -o FILE   writes the unit to FILE, and not to standard output

example: lampruda assemble -o law.unit examples/law.lasm

",
        text::FORMAT,
    ],
    flags: &[],
    values: &["-o"],
    run,
};

const IS_UNIT: &str = "this is a unit: lampruda disassemble gives its text";

fn run(arguments: Arguments) -> Result<Status, String> {
    let input = arguments.input()?;
    let text = input.text().map_err(|error| match Unit::check(&input.bytes) {
        Some(_) => Error { message: IS_UNIT.into(), ..error },
        None => error,
    });
    match text.and_then(text::assemble) {
        Ok(unit) => match input::write(arguments.value("-o"), &unit)? {
            true => Ok(Status::Done),
            false => Err(arguments.usage("a unit is bytes: name a file with -o, or pipe it on")),
        },
        Err(error) => {
            input.report(&error);
            Ok(Status::Refused)
        }
    }
}
