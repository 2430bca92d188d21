//! `lampruda list`: a unit before and after, side by side.

use super::Command;
use crate::answered::Answered;
use crate::arguments::Arguments;
use crate::console::{self, Colour, Ink};
use crate::json::Json;
use crate::refused::Refused;
use crate::report::{self, report_refused};
use crate::Status;
use lampruda::{cleaned_fates, Fate, Workspace};
use std::collections::BTreeMap;
use text::Lines;
use unit::{Answer, Parts, Rewritten, Unit};

pub const COMMAND: Command = Command {
    name: "list",
    summary: "a unit before and after, side by side, and what became of what",
    help: &["Lists a unit before and after one pass, side by side, and says what became of
each instruction that was removed or replaced:

  unreachable       no run comes here
  plain hint        a Hint with flags 0 does nothing
  never taken       a branch whose known condition lets the code go on
  dead store        nothing reads what it stores
  idle jump         it leads to where the code goes on anyway
  folded            its result is known, and is loaded
  copied            a slot holds its result already, and is copied
  always taken      a branch whose known condition jumps became Jump
  operand replaced  it reads another slot that holds the same value

Places are counted from 0; L12 is place 12, an old one on the left, a new one on
the right. line=7 is the line of the script that a place has.

usage: lampruda list [--clean] [--json] [UNIT]

  --clean   lists the cleaning, up to three passes: what was removed has the
            number of its pass, and what is left is compared with the given unit
  --json    prints the rows as JSON

example: lampruda list examples/law.unit
"],
    flags: &["--clean", "--json"],
    values: &[],
    run,
};

/// A terminal's width.
const COLUMNS: usize = 80;

/// An instruction of the given unit, and what became of it.
struct Row {
    old: usize,
    before: String,
    after: Option<(usize, String)>,
    fate: Fate,
    /// The pass that removed it, in a cleaning.
    pass: Option<u32>,
}

fn run(arguments: Arguments) -> Result<Status, String> {
    let input = arguments.input()?;
    let clean = arguments.has("--clean");
    let mut workspace = Workspace::default();
    let answered = Answered::new(&mut workspace, &input.bytes, clean);
    if let Some(refused) = Refused::new(&mut workspace, &input.bytes, &answered) {
        return report_refused(&input.name, &refused, arguments.has("--json"));
    }
    let unit = Unit::parse(&input.bytes)?;
    let rows = rows(&mut workspace, &unit, &answered, clean);
    let text = if arguments.has("--json") {
        json(&input.name, &answered, rows).line()
    } else {
        let ink = Ink::out();
        let answer = report::words(ink, &input.bytes, &answered, clean);
        format!("{}: {answer}\n\n{}", input.name, table(ink, &rows))
    };
    console::print(text).map(|()| Status::Done)
}

fn rows(workspace: &mut Workspace, unit: &Unit, answered: &Answered, clean: bool) -> Vec<Row> {
    let given = Parts::decode(unit);
    let (result, after) = match &answered.answer {
        Answer::Rewritten { bytes } => (Rewritten::decode(bytes), lampruda::as_unit(unit.bytes(), bytes)),
        _ => (None, None),
    };
    let fates = match &result {
        Some(result) => cleaned_fates(unit, result, &workspace.passes(unit, answered.passes)),
        None => vec![(Fate::Kept, 0); given.code.len()],
    };
    let after = after.as_deref().and_then(Unit::check).map(|unit| Parts::decode(&unit));
    let after = after.unwrap_or_else(|| given.clone());
    let (before_lines, after_lines) = (Lines::new(&given), Lines::new(&after));
    let mut new = 0..after.code.len();
    let row = |(old, (fate, pass)): (usize, (Fate, u32))| {
        let after = if fate.is_removed() { None } else { new.next() };
        Row {
            old,
            before: before_lines.mnemonic(old) + &before_lines.marker(old),
            after: after.map(|new| (new, after_lines.mnemonic(new) + &after_lines.marker(new))),
            fate,
            pass: (clean && fate.is_removed()).then_some(pass),
        }
    };
    fates.into_iter().enumerate().map(row).collect()
}

impl Row {
    fn after(&self) -> (String, &str) {
        self.after.as_ref().map(|(new, text)| (new.to_string(), text.as_str())).unwrap_or_default()
    }

    /// What the last column says: nothing where it was kept.
    fn word(&self) -> String {
        match (self.fate, self.pass) {
            (Fate::Kept, _) => String::new(),
            (fate, Some(pass)) => format!("{fate}, pass {pass}"),
            (fate, None) => fate.to_string(),
        }
    }
}

fn table(ink: Ink, rows: &[Row]) -> String {
    let widest = |width: &dyn Fn(&Row) -> usize| rows.iter().map(width).max().unwrap_or(0);
    let places = widest(&|row| row.old.to_string().len()).max("old".len());
    let before = widest(&|row| row.before.len()).max("before".len());
    let last = if rows.iter().any(|row| row.fate != Fate::Kept) { "what became of it" } else { "" };
    let words = widest(&|row| row.word().len()).max(last.len());
    let mut after = widest(&|row| row.after().1.len()).max("after".len());
    if 2 * places + before + after + words + 8 > COLUMNS {
        // Where nothing follows, what is after may go past its column.
        after =
            widest(&|row| if row.fate == Fate::Kept { 0 } else { row.after().1.len() }).max("after".len());
    }
    let line = |old: &str, given: &str, new: &str, text: &str, word: &str| {
        let line = format!("{old:>places$}  {given:before$}  {new:>places$}  {text:after$}  {word}");
        line.trim_end().to_string()
    };
    let mut table = ink.paint(Colour::Dim, &line("old", "before", "new", "after", last)) + "\n";
    for row in rows {
        let (new, text) = row.after();
        let line = line(&row.old.to_string(), &row.before, &new, text, &row.word());
        table += &match row.fate {
            Fate::Kept => line,
            fate if fate.is_removed() => ink.paint(Colour::Red, &line),
            _ => ink.paint(Colour::Yellow, &line),
        };
        table.push('\n');
    }
    table + &sums(rows)
}

/// How many were removed and replaced, by fate.
fn sums(rows: &[Row]) -> String {
    let mut counts = BTreeMap::new();
    for row in rows.iter().filter(|row| row.fate != Fate::Kept) {
        *counts.entry(row.fate).or_insert(0) += 1;
    }
    let sum = |name: &str, removed: bool| {
        let counts: Vec<_> = counts.iter().filter(|(fate, _)| fate.is_removed() == removed).collect();
        let total: u32 = counts.iter().map(|(_, count)| **count).sum();
        let parts: Vec<String> = counts.iter().map(|(fate, count)| format!("{fate} {count}")).collect();
        match total {
            0 => String::new(),
            _ => format!("{name} {total}: {}\n", parts.join(", ")),
        }
    };
    let sums = sum("removed", true) + &sum("replaced", false);
    if sums.is_empty() {
        sums
    } else {
        format!("\n{sums}")
    }
}

fn json(name: &str, answered: &Answered, rows: Vec<Row>) -> Json {
    let answer = match answered.answer {
        Answer::Rewritten { .. } => "rewritten",
        _ => "unchanged",
    };
    let row = |row: Row| {
        let (new, after) = row.after.unzip();
        Json::Object(vec![
            ("old", row.old.into()),
            ("before", row.before.into()),
            ("new", new.into()),
            ("after", after.into()),
            ("fate", row.fate.to_string().into()),
            ("pass", row.pass.into()),
        ])
    };
    Json::Object(vec![
        ("file", name.into()),
        ("answer", answer.into()),
        ("passes", answered.passes.into()),
        ("rows", Json::List(rows.into_iter().map(row).collect())),
    ])
}
