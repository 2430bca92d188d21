//! The subcommands, a file each.

mod assemble;
mod charge;
mod clean;
mod disassemble;
mod job;
mod list;
mod operand;
mod pass;
mod run;
mod short;

use crate::arguments::Arguments;
use crate::Status;

/// In the order in which they are listed.
pub const COMMANDS: [&Command; 10] = [
    &pass::COMMAND,
    &clean::COMMAND,
    &list::COMMAND,
    &run::COMMAND,
    &charge::COMMAND,
    &assemble::COMMAND,
    &disassemble::COMMAND,
    &job::COMMAND,
    &operand::COMMAND,
    &short::COMMAND,
];

/// A subcommand.
pub struct Command {
    pub name: &'static str,
    /// One line, for the list of commands.
    pub summary: &'static str,
    /// Its parts, one below the other.
    pub help: &'static [&'static str],
    /// Options that stand alone, and those that a value follows.
    pub flags: &'static [&'static str],
    pub values: &'static [&'static str],
    pub run: fn(Arguments) -> Result<Status, String>,
}
