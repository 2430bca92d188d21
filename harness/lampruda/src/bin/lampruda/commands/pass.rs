//! `lampruda pass`: one pass over a unit.

use super::Command;
use crate::report;

pub const COMMAND: Command = Command {
    name: "pass",
    summary: "one pass over a unit",
    help: &[
        "Runs one pass over a unit. The answer is told on standard error; where the
function is rewritten, the result goes to standard output or to a file.

usage: lampruda pass [--unit] [--json] [-o FILE] [UNIT]

",
        report::OPTIONS,
        "
example: lampruda pass --unit -o shorter.unit examples/law.unit
",
    ],
    flags: &["--unit", "--json"],
    values: &["-o"],
    run: |arguments| report::run(&arguments, false),
};
