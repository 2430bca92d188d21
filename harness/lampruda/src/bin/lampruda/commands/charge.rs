//! `lampruda charge`: what a run at the desk costs.

use super::Command;
use crate::answered::Answered;
use crate::arguments::Arguments;
use crate::bill::{self, Bill};
use crate::console::{self, Colour, Ink};
use crate::desk::{self, Start, Stopped};
use crate::input::Input;
use crate::json::Json;
use crate::refused::Refused;
use crate::report::{self, report_refused};
use crate::Status;
use lampruda::{Charged, Stop, Workspace};
use std::cmp::Ordering;
use text::{grouped, Breach, Opcode, Tariff};

pub const COMMAND: Command = Command {
    name: "charge",
    summary: "what a run at the desk costs by a tariff, also when it is cleaned",
    help: &[
        "Runs the function of a unit at the desk, as lampruda run does, with a price for
each step by its opcode. The charge is the sum of the prices, divided by 1,000
and rounded up to a whole cent. Below the answer stands a bill: for each opcode
that was executed its steps, its price and their product, in thousandths of a
cent, the largest first and equal ones by name; then the charge, in cents and as
money.

usage: lampruda charge --tariff FILE [--compare] [--slot K=WORD ..]
                       [--frame FILE] [--limit N] [--trace] [--json] [UNIT]

  --tariff FILE  the prices, in thousandths of a cent
  --compare      cleans the function and runs what is left of it too, from the
                 same words within the same limit: both bills side by side
",
        desk::OPTIONS,
        "  --json         prints the answer as JSON, words as texts; its breaches are the
                 prices that are against the first two conditions below; with
                 --trace a line of JSON for each step, and the answer last

A trace is of the given function.

A tariff is a text with a line for each opcode, in any order: its name and its
price, from 0 to 65535. The name * is for all opcodes without a line. A ; starts
a comment, and a comma counts as a space:

  AddI 250
  * 300       ; all others

A cleaned function is never charged more, if LoadInt and Copy cost no more than
any of the 47 unary and binary opcodes, if Jump costs no more than JumpIf and
JumpIfNot, and if the given function returns, panics or runs out at its end
within the limit. A note says which of these does not hold.

The library counts the steps of each opcode by a run of their own, so a bill
takes as long as two runs and one more for each opcode in the function.
",
        desk::WORDS,
        "example: lampruda charge --tariff examples/centre.tariff examples/sum.unit
",
    ],
    flags: &["--compare", "--trace", "--json"],
    values: &["--tariff", "--slot", "--frame", "--limit"],
    run,
};

fn run(arguments: Arguments) -> Result<Status, String> {
    let file = arguments.value("--tariff").ok_or_else(|| arguments.usage("name a tariff with --tariff"))?;
    let input = Input::file(file)?;
    let tariff = match input.text().and_then(Tariff::read) {
        Ok(tariff) => tariff,
        Err(error) => {
            input.report(&error);
            return Ok(Status::Unreadable);
        }
    };
    let start = Start::read(&arguments)?;
    let json = arguments.has("--json");
    let given = match Charge::new(&start, &tariff) {
        Ok(charge) => charge,
        Err(refused) => return report_refused(&start.input.name, &refused, json),
    };
    if arguments.has("--trace") && start.print_trace(&mut start.frame.clone(), json)?.is_none() {
        return Ok(Status::Done);
    }
    let cleaning = arguments.has("--compare").then(|| Cleaning::new(&start)).transpose()?;
    let rewritten = cleaning.as_ref().and_then(|cleaning| cleaning.start.as_ref());
    let cleaned = rewritten.map(|start| Charge::new(start, &tariff)).transpose();
    let cleaned = cleaned.map_err(|refused| format!("the cleaned function is {}", refused.words()))?;
    let answer = Answer { start: &start, tariff: &tariff, given, cleaning: cleaning.as_ref(), cleaned };
    let text = if json { answer.json().line() } else { answer.text(Ink::out()) };
    console::print(text).map(|()| Status::Done)
}

/// How a run stopped, and its bill.
struct Charge<'a> {
    stopped: Stopped<'a>,
    bill: Bill<'a>,
}

impl<'a> Charge<'a> {
    fn new(start: &'a Start, tariff: &'a Tariff) -> Result<Self, Refused> {
        let mut frame = start.frame.clone();
        let Charged { stop, cents } =
            lampruda::charge(&start.input.bytes, &mut frame, start.limit, &tariff.prices);
        let stopped = start.stopped(stop, frame)?;
        Ok(Self { stopped, bill: Bill::new(start, tariff, cents) })
    }

    /// "returns, panics or runs out at its end within the step limit"
    fn has_ended(&self) -> bool {
        matches!(self.stopped.stop, Stop::Returned { .. } | Stop::Panicked { .. } | Stop::Ended)
    }

    fn json(&self) -> Vec<(&'static str, Json)> {
        self.stopped.json().into_iter().chain(self.bill.json()).collect()
    }
}

/// What the cleaning says of a function.
struct Cleaning {
    answered: Answered,
    refused: Option<Refused>,
    /// What it leaves, with the same words and limit, where that is another function.
    start: Option<Start>,
}

impl Cleaning {
    fn new(start: &Start) -> Result<Self, String> {
        let unit = &start.input.bytes;
        let mut workspace = Workspace::default();
        let answered = Answered::new(&mut workspace, unit, true);
        let refused = Refused::new(&mut workspace, unit, &answered);
        let cleaned = match &answered.answer {
            unit::Answer::Rewritten { bytes } => {
                Some(lampruda::as_unit(unit, bytes).ok_or("the library laid no unit out")?)
            }
            _ => None,
        };
        let start = cleaned.map(|unit| start.with("cleaned", unit));
        Ok(Self { answered, refused, start })
    }

    fn text(&self, ink: Ink, unit: &[u8]) -> String {
        let (words, lines) = match &self.refused {
            Some(refused) => (ink.paint(Colour::Red, &refused.words()), refused.lines()),
            None => (report::words(ink, unit, &self.answered, true), String::new()),
        };
        format!("cleaning: {words}\n{lines}")
    }

    fn json(&self, unit: &[u8]) -> Json {
        let summary = || report::summary(unit, &self.answered, true);
        Json::Object(self.refused.as_ref().map_or_else(summary, Refused::json))
    }
}

/// The given function's charge, and with `--compare` the cleaned one's, where that is another function.
struct Answer<'a> {
    start: &'a Start,
    tariff: &'a Tariff,
    given: Charge<'a>,
    cleaning: Option<&'a Cleaning>,
    cleaned: Option<Charge<'a>>,
}

impl Answer<'_> {
    fn text(&self, ink: Ink) -> String {
        let (given, cleaned) = (&self.given, self.cleaned.as_ref());
        let mut text = given.stopped.answer(ink);
        text.extend(self.cleaning.map(|cleaning| cleaning.text(ink, &self.start.input.bytes)));
        text.extend(cleaned.map(|cleaned| cleaned.stopped.answer(ink)));
        text += &format!("\n{}", bill::table(ink, &given.bill, cleaned.map(|cleaned| &cleaned.bill)));
        let cents = given.bill.cents;
        text += &format!("\ncharge: {} ({})\n", worded(cents), money(cents));
        text.extend(cleaned.map(|Charge { bill, .. }| {
            let difference = difference(cents, bill.cents);
            format!("cleaned: {} ({}), {difference}\n", worded(bill.cents), money(bill.cents))
        }));
        text + &self.note(ink)
    }

    /// What speaks against the promise about cleaned functions, where something does.
    fn note(&self, ink: Ink) -> String {
        let mut reasons: Vec<String> = self.tariff.breaches().iter().map(Breach::to_string).collect();
        if self.cleaned.is_some() && !self.given.has_ended() {
            reasons.push("the given function did not return, panic or run out at its end".into());
        }
        if reasons.is_empty() {
            return String::new();
        }
        let note = ink.paint(Colour::Yellow, "note");
        let lines: String = reasons.iter().map(|reason| format!("  {reason}\n")).collect();
        format!("\n{note}: nothing is promised, a cleaned function may be charged more:\n{lines}")
    }

    fn json(&self) -> Json {
        let mut fields = vec![("file", self.start.input.name.as_str().into())];
        fields.extend(self.given.json());
        fields.push(("breaches", Json::List(self.tariff.breaches().iter().map(breach).collect())));
        if let Some(cleaning) = self.cleaning {
            let cleaned = self.cleaned.as_ref();
            let difference = cleaned.map(|cleaned| cleaned.bill.cents as i64 - self.given.bill.cents as i64);
            let percent = difference.and_then(|difference| {
                let sign = if difference < 0 { "-" } else { "" };
                Some(format!("{sign}{}", percent(difference.unsigned_abs(), self.given.bill.cents)?))
            });
            fields.extend([
                ("cleaning", cleaning.json(&self.start.input.bytes)),
                ("cleaned", cleaned.map(|cleaned| Json::Object(cleaned.json())).into()),
                ("difference", difference.map(Json::Number).into()),
                ("percent", percent.into()),
            ]);
        }
        Json::Object(fields)
    }
}

fn breach(Breach { dear, cheaper }: &Breach) -> Json {
    let priced = |(opcode, price): &(Opcode, u16)| {
        vec![("opcode", opcode.name().into()), ("price", u32::from(*price).into())]
    };
    let cheaper = cheaper.iter().map(|opcode| Json::Object(priced(opcode))).collect();
    Json::Object(priced(dear).into_iter().chain([("cheaper", Json::List(cheaper))]).collect())
}

/// How a charge differs from the one before.
fn difference(before: u64, after: u64) -> String {
    let word = match after.cmp(&before) {
        Ordering::Equal => return "the same".into(),
        Ordering::Less => "less",
        Ordering::Greater => "more",
    };
    let difference = before.abs_diff(after);
    let percent = percent(difference, before).map(|percent| format!(" ({percent} %)"));
    format!("{} {word}{}", worded(difference), percent.unwrap_or_default())
}

/// A number in percent of another, with one digit behind the point; `None` where that is 0.
fn percent(number: u64, of: u64) -> Option<String> {
    let tenths = (number * 1_000 + of / 2).checked_div(of)?;
    Some(format!("{}.{}", tenths / 10, tenths % 10))
}

fn worded(cents: u64) -> String {
    format!("{} cent{}", grouped(cents), if cents == 1 { "" } else { "s" })
}

/// Hundreds of cents, and what is left of them behind a point.
fn money(cents: u64) -> String {
    format!("{}.{:02}", grouped(cents / 100), cents % 100)
}

#[cfg(test)]
mod tests {
    use super::{difference, money, worded};

    #[test]
    fn charges_in_words() {
        for (cents, words, sum) in [
            (0, "0 cents", "0.00"),
            (1, "1 cent", "0.01"),
            (100, "100 cents", "1.00"),
            (281_470_681_678, "281,470,681,678 cents", "2,814,706,816.78"),
        ] {
            assert_eq!((worded(cents).as_str(), money(cents).as_str()), (words, sum));
        }
    }

    #[test]
    fn differences_in_words() {
        let most = 281_470_681_678;
        for (before, after, words) in [
            (0, 0, "the same"),
            (10, 9, "1 cent less (10.0 %)"),
            (10, 13, "3 cents more (30.0 %)"),
            (3, 1, "2 cents less (66.7 %)"),
            (most, 0, "281,470,681,678 cents less (100.0 %)"),
            (most, most - 1, "1 cent less (0.0 %)"),
            (1, most, "281,470,681,677 cents more (28147068167700.0 %)"),
            (0, 5, "5 cents more"),
        ] {
            assert_eq!(difference(before, after), words);
        }
    }
}
