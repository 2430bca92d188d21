//! `pass` and `clean`: a unit in, the result out.

use crate::answered::Answered;
use crate::arguments::Arguments;
use crate::console::{self, Colour, Ink};
use crate::input;
use crate::json::Json;
use crate::refused::Refused;
use crate::Status;
use lampruda::Workspace;
use std::path::Path;
use unit::buffers::WORKED_ON;
use unit::{Answer, Instruction, Retained, Rewritten, Section, Unit};

/// The options of both, for their help.
pub const OPTIONS: &str = "  -o FILE   writes the result to FILE
  --unit    lays the result out as a unit again, which can be passed or
            disassembled; an unchanged unit is then written as it is
  --json    prints the answer and the retained instructions as JSON; the
            result goes to a file only
";

/// The result goes to a file or to standard output, the answer in words to standard error; with `--json` the
/// answer goes to standard output, and the result to a file alone.
pub fn run(arguments: &Arguments, clean: bool) -> Result<Status, String> {
    let out = arguments.value("-o");
    if arguments.has("--json") && out.is_some_and(|out| out == Path::new("-")) {
        return Err(arguments.usage("--json is printed on standard output: the result needs a file"));
    }
    let input = arguments.input()?;
    let mut workspace = Workspace::default();
    let answered = Answered::new(&mut workspace, &input.bytes, clean);
    if let Some(refused) = Refused::new(&mut workspace, &input.bytes, &answered) {
        return report_refused(&input.name, &refused, arguments.has("--json"));
    }
    let result = match &answered.answer {
        Answer::Rewritten { bytes } if arguments.has("--unit") => {
            Some(lampruda::as_unit(&input.bytes, bytes).ok_or("the library laid no unit out")?)
        }
        Answer::Rewritten { bytes } => Some(bytes.clone()),
        _ if arguments.has("--unit") => Some(input.bytes.clone()),
        _ => None,
    };
    if arguments.has("--json") {
        if let (Some(result), Some(_)) = (&result, out) {
            input::write(out, result)?;
        }
        let mut fields = vec![("file", input.name.as_str().into())];
        fields.extend(json(&input.bytes, &answered, clean));
        console::print(Json::Object(fields).line())?;
    } else {
        eprintln!("{}: {}", input.name, words(Ink::err(), &input.bytes, &answered, clean));
        match result {
            Some(result) if input::write(out, &result)? => {}
            Some(_) => eprintln!("  The result is bytes: name a file with -o, or pipe it on."),
            None if out.is_some() => eprintln!("  No result is written."),
            None => {}
        }
    }
    Ok(Status::Done)
}

pub fn report_refused(name: &str, refused: &Refused, json: bool) -> Result<Status, String> {
    if json {
        let mut fields = vec![("file", name.into())];
        fields.extend(refused.json());
        console::print(Json::Object(fields).line())?;
    } else {
        eprint!("{name}: {}\n{}", Ink::err().paint(Colour::Red, &refused.words()), refused.lines());
    }
    Ok(Status::Refused)
}

/// An answer that is no refusal, in one line.
pub fn words(ink: Ink, unit: &[u8], answered: &Answered, clean: bool) -> String {
    let (before, after) = counts(unit, &answered.answer);
    let passes = match answered.passes {
        _ if !clean => String::new(),
        1 => " after 1 pass".into(),
        passes => format!(" after {passes} passes"),
    };
    match answered.answer {
        Answer::Rewritten { .. } => {
            let rewritten = ink.paint(Colour::Green, "rewritten");
            format!("{rewritten}, {after} of {before} instructions are left{passes}")
        }
        _ => format!("unchanged: {}", why_unchanged(unit)),
    }
}

/// "unchanged: n under 2, above 65,536, or defer", or "same code, all kept".
fn why_unchanged(unit: &[u8]) -> &'static str {
    let Some(unit) = Unit::check(unit) else { return "" };
    let n = unit.header().count(Section::Code);
    if n < *WORKED_ON.start() {
        "it has fewer than 2 instructions"
    } else if n > *WORKED_ON.end() {
        "it has more than 65,536 instructions"
    } else if !unit.is_worked_on() {
        "it has defer"
    } else {
        "there is nothing to improve"
    }
}

/// The instructions before and after.
pub fn counts(unit: &[u8], answer: &Answer) -> (usize, usize) {
    let before = Unit::check(unit).map_or(0, |unit| unit.code().count());
    let after = match answer {
        Answer::Rewritten { bytes } => Rewritten::decode(bytes).map_or(0, |result| result.retained.len()),
        _ => before,
    };
    (before, after)
}

/// The answer with its retained instructions, as the listing program has them.
fn json(unit: &[u8], answered: &Answered, clean: bool) -> Vec<(&'static str, Json)> {
    let mut fields = summary(unit, answered, clean);
    if let Answer::Rewritten { bytes } = &answered.answer {
        let result = Rewritten::decode(bytes);
        let code = result.iter().flat_map(|result| result.retained.iter().enumerate().map(retained));
        fields.push(("code", Json::List(code.collect())));
    }
    fields
}

/// An answer that is no refusal, without its instructions.
pub fn summary(unit: &[u8], answered: &Answered, clean: bool) -> Vec<(&'static str, Json)> {
    let (before, after) = counts(unit, &answered.answer);
    let mut fields = match &answered.answer {
        Answer::Rewritten { .. } => vec![("answer", "rewritten".into())],
        _ => vec![("answer", "unchanged".into()), ("why", why_unchanged(unit).into())],
    };
    if clean {
        fields.push(("passes", answered.passes.into()));
    }
    fields.extend([("before", before.into()), ("after", after.into())]);
    fields
}

fn retained((place, entry): (usize, &Retained)) -> Json {
    let Instruction { op, flags, a, b, c } = entry.instruction;
    Json::Object(vec![
        ("place", place.into()),
        ("old_place", entry.old_place.into()),
        ("op", u32::from(op).into()),
        ("flags", u32::from(flags).into()),
        ("a", u32::from(a).into()),
        ("b", u32::from(b).into()),
        ("c", u32::from(c).into()),
    ])
}
