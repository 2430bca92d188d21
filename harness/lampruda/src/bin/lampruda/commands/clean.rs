//! `lampruda clean`: up to three passes over a unit.

use super::Command;
use crate::report;

pub const COMMAND: Command = Command {
    name: "clean",
    summary: "up to three passes over a unit, until one finds nothing",
    help: &[
        "Runs up to three passes over a unit, until one finds nothing to improve. The
answer is told on standard error; where the function is rewritten, the result
goes to standard output or to a file, with places in the unit that was given.
A refusal in any pass refuses the unit; its place is one of that pass.

usage: lampruda clean [--unit] [--json] [-o FILE] [UNIT]

",
        report::OPTIONS,
        "
example: lampruda clean --unit examples/law.unit | lampruda disassemble
",
    ],
    flags: &["--unit", "--json"],
    values: &["-o"],
    run: |arguments| report::run(&arguments, true),
};
