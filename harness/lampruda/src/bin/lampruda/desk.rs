//! What `run` and `charge` share: where a run starts, and how it stopped.

use crate::arguments::Arguments;
use crate::console::{self, Colour, Ink};
use crate::input::Input;
use crate::json::Json;
use crate::refused::Refused;
use crate::table::table;
use crate::trace::{altered, traced, Trace};
use crate::word::{readings, word, READINGS};
use lampruda::Stop;
use std::mem;
use std::path::Path;
use text::Lines;
use unit::{Parts, Unit};

/// The options of both, for their help.
pub const OPTIONS: &str = "  --slot K=WORD  the word of slot K at the start; slots not named hold 0
  --frame FILE   the words of all slots at the start, each of 64 bits,
                 little-endian; those of --slot replace them
  --limit N      how many steps are allowed, up to 4294967295; else 1000000
  --trace        prints a line for each step: its number, its place, the line of
                 the script, the instruction and the slots that it altered, old
                 -> new, those of type Float as floats and all others signed
";

/// What words and the exit status are, for their help.
pub const WORDS: &str = "
A WORD is decimal or hexadecimal (0x), from -9223372036854775808 to
18446744073709551615; one with a point is a float, and stands for its bits. Exit
status 0 says that the run stopped, in whichever way, and 1 that it was refused.

";

const LIMIT: u32 = 1_000_000;

/// A long trace is printed in pieces of about so many bytes.
const PIECE: usize = 1 << 16;

/// A unit, the words of its slots at the start, and how many steps are allowed.
pub struct Start {
    pub input: Input,
    /// Empty where the bytes are no unit.
    pub parts: Parts,
    pub frame: Vec<u64>,
    pub limit: u32,
}

impl Start {
    pub fn read(arguments: &Arguments) -> Result<Self, String> {
        let slots = slots(arguments)?;
        let limit = limit(arguments)?;
        let input = arguments.input()?;
        let parts = Unit::check(&input.bytes).map(|unit| Parts::decode(&unit));
        if let Some(Parts { local_slots, .. }) = parts {
            if let Some((slot, _)) = slots.iter().find(|(slot, _)| *slot >= local_slots) {
                let has = plural(local_slots, "slot");
                return Err(
                    arguments.usage(&format!("there is no slot {slot}, the function has {has}, from 0 on"))
                );
            }
        }
        // What is no unit is refused whatever the frame.
        let parts = parts.unwrap_or_default();
        let mut frame = match arguments.value("--frame") {
            Some(file) => words(file)?,
            None => vec![0; parts.local_slots as usize],
        };
        for (slot, word) in slots {
            // A frame too short for it is refused.
            frame.get_mut(slot as usize).into_iter().for_each(|old| *old = word);
        }
        Ok(Self { input, parts, frame, limit })
    }

    /// The same for another unit with as many slots.
    pub fn with(&self, name: &str, unit: Vec<u8>) -> Self {
        let parts = Unit::check(&unit).map(|unit| Parts::decode(&unit)).unwrap_or_default();
        Self {
            input: Input { name: name.into(), bytes: unit },
            parts,
            frame: self.frame.clone(),
            limit: self.limit,
        }
    }

    /// The run step by step; `None` where nobody reads on.
    pub fn print_trace(&self, frame: &mut Vec<u64>, json: bool) -> Result<Option<Stop>, String> {
        let trace = Trace::new(&self.parts);
        let (mut piece, mut steps) = (String::new(), 0);
        let stop = traced(&self.input.bytes, frame, self.limit, |step| {
            if json {
                piece += &trace.json(&step).line();
            } else {
                if steps == 0 {
                    piece = Ink::out().paint(Colour::Dim, &trace.heading()) + "\n";
                }
                piece += &(trace.text(&step) + "\n");
            }
            steps += 1;
            Ok(piece.len() < PIECE || console::print_on(mem::take(&mut piece))?)
        })?;
        if !json && steps > 0 {
            piece.push('\n');
        }
        console::print(piece)?;
        Ok(stop)
    }

    /// How the run stopped, and the words of the slots then.
    pub fn stopped(&self, stop: Stop, frame: Vec<u64>) -> Result<Stopped<'_>, Refused> {
        match stop {
            Stop::Refused { number, place } => {
                Err(Refused::at_desk(&self.input.bytes, self.frame.len(), number, place))
            }
            _ => Ok(Stopped { start: self, stop, frame }),
        }
    }
}

/// The slots and words of `--slot`.
fn slots(arguments: &Arguments) -> Result<Vec<(u32, u64)>, String> {
    let slot = |text: String| {
        let pair = text.split_once('=');
        let numbers = pair.and_then(|(slot, text)| slot.parse().ok().zip(word(text)));
        numbers.ok_or_else(|| arguments.usage(&format!("{text} is no slot and word, as in 3=-5")))
    };
    arguments.values("--slot").map(|text| slot(text.to_string_lossy().into_owned())).collect()
}

fn limit(arguments: &Arguments) -> Result<u32, String> {
    let Some(text) = arguments.values("--limit").last() else { return Ok(LIMIT) };
    let text = text.to_string_lossy();
    text.parse().map_err(|_| arguments.usage(&format!("{text} is no limit from 0 to {}", u32::MAX)))
}

/// The words in a file: any number of them, since it is for the library to refuse a frame.
fn words(file: &Path) -> Result<Vec<u64>, String> {
    let Input { name, bytes } = Input::file(file)?;
    let words = bytes.chunks(8).map(|word| word.try_into().map(u64::from_le_bytes));
    let words: Result<Vec<u64>, _> = words.collect();
    words.map_err(|_| format!("{name}: {} bytes are no words of 8 bytes each", bytes.len()))
}

/// How a run stopped that was not refused, and the words of the slots then.
pub struct Stopped<'a> {
    start: &'a Start,
    pub stop: Stop,
    frame: Vec<u64>,
}

impl Stopped<'_> {
    /// The words that Return or Panic read, with their slots.
    fn read(&self) -> Option<Vec<(usize, u64)>> {
        match self.stop {
            Stop::Returned { first, count } | Stop::Panicked { first, count } => {
                let words = self.frame.iter().copied().enumerate();
                Some(words.skip(first as usize).take(count as usize).collect())
            }
            _ => None,
        }
    }

    /// Those, or else the words of the slots that the run altered.
    fn shown(&self) -> Vec<(usize, u64)> {
        let altered =
            || altered(&self.start.frame, &self.frame).map(|(slot, _, word)| (slot, word)).collect();
        self.read().unwrap_or_else(altered)
    }

    /// In a line, with another below where more is to be said.
    pub fn answer(&self, ink: Ink) -> String {
        let shown = self.shown().len() as u32;
        let (read, slots) = (plural(shown, "word"), plural(shown, "slot"));
        let steps = plural(self.start.limit, "step");
        let answer = match self.stop {
            Stop::Returned { .. } => format!("{} {read}", ink.paint(Colour::Green, "returned")),
            Stop::Panicked { .. } => format!("{} with {read}", ink.paint(Colour::Red, "panicked")),
            Stop::Ended => format!("ran out at the end of the code, {slots} altered"),
            Stop::Other { .. } => format!("came to what the desk does not execute, {slots} altered"),
            Stop::Limit | Stop::Refused { .. } => format!("reached the limit of {steps}, {slots} altered"),
        };
        let detail = match self.stop {
            Stop::Other { place } => {
                let lines = Lines::new(&self.start.parts);
                let place = place as usize;
                format!("  place {place}: {}{}\n", lines.instruction(place), lines.marker(place))
            }
            Stop::Limit => format!("  --limit N sets another, up to {}\n", u32::MAX),
            _ => String::new(),
        };
        format!("{}: {answer}\n{detail}", self.start.input.name)
    }

    /// The words in their readings, a slot each; nothing where there are none.
    pub fn words(&self, ink: Ink) -> String {
        let row = |(slot, word): (usize, u64)| [slot.to_string()].into_iter().chain(readings(word)).collect();
        let rows: Vec<Vec<String>> = self.shown().into_iter().map(row).collect();
        if rows.is_empty() {
            return String::new();
        }
        let heading = ["slot"].into_iter().chain(READINGS).map(String::from).collect();
        format!("\n{}", table(ink, 0, heading, &rows))
    }

    pub fn json(&self) -> Vec<(&'static str, Json)> {
        let (answer, first, place) = match self.stop {
            Stop::Returned { first, .. } => ("returned", Some(first), None),
            Stop::Panicked { first, .. } => ("panicked", Some(first), None),
            Stop::Ended => ("ended", None, None),
            Stop::Other { place } => ("other", None, Some(place)),
            Stop::Limit | Stop::Refused { .. } => ("limit", None, None),
        };
        let words = self.read();
        let lines = Lines::new(&self.start.parts);
        let object = |(slot, word): (usize, u64)| {
            let readings = READINGS.into_iter().zip(readings(word).map(Json::from));
            Json::Object([("slot", slot.into())].into_iter().chain(readings).collect())
        };
        vec![
            ("answer", answer.into()),
            ("first", first.into()),
            ("count", words.as_ref().map(Vec::len).into()),
            ("words", words.map_or(Json::Null, |words| Json::List(words.into_iter().map(object).collect()))),
            ("place", place.into()),
            ("line", place.and_then(|place| lines.line(place as usize)).into()),
            ("instruction", place.map(|place| lines.instruction(place as usize)).into()),
            ("limit", self.start.limit.into()),
            ("frame", Json::List(self.frame.iter().map(|word| word.to_string().into()).collect())),
        ]
    }
}

fn plural(count: u32, name: &str) -> String {
    match count {
        0 => format!("no {name}s"),
        1 => format!("1 {name}"),
        _ => format!("{count} {name}s"),
    }
}
