//! Refusals in words.

use crate::answered::Answered;
use crate::json::Json;
use lampruda::Workspace;
use std::str;
use text::{target, Lines};
use unit::{Answer, Kind, Parts, Refusal, Unit};

/// A refusal: number and place, what it means, and the instruction at that place.
pub struct Refused {
    number: u32,
    place: u32,
    /// `None` at the desk.
    pass: Option<u32>,
    meaning: &'static str,
    /// What it is in this unit.
    detail: Option<String>,
    instruction: Option<String>,
    /// The place in the given unit, where the refused pass was not the first.
    given_place: Option<u32>,
}

impl Refused {
    /// `None` for other answers.
    pub fn new(workspace: &mut Workspace, bytes: &[u8], answered: &Answered) -> Option<Self> {
        let &Answered { answer: Answer::Refused { number, place }, passes: pass } = answered else {
            return None;
        };
        let passes = Unit::check(bytes).map_or(Vec::new(), |unit| workspace.passes(&unit, pass));
        let last = passes.last();
        let mut refused = Self::of(number, place, Some(pass));
        refused.explain(last.map_or(bytes, |last| &last.unit), None);
        let origin = last.and_then(|last| last.origins.get(place as usize));
        refused.given_place = origin.copied().filter(|_| pass > 1);
        Some(refused)
    }

    /// One at the desk, for a frame of so many words.
    pub fn at_desk(bytes: &[u8], frame: usize, number: u32, place: u32) -> Self {
        let mut refused = Self::of(number, place, None);
        refused.explain(bytes, Some(frame));
        refused
    }

    fn of(number: u32, place: u32, pass: Option<u32>) -> Self {
        let meaning = Refusal::from_number(number).map_or("", Refusal::meaning);
        Self { number, place, pass, meaning, detail: None, instruction: None, given_place: None }
    }

    /// What the refusal is about, in the unit that was refused; at the desk, with its frame's length.
    fn explain(&mut self, bytes: &[u8], frame: Option<usize>) {
        let unit = match Unit::parse(bytes) {
            Ok(unit) => unit,
            Err(_) if is_text(bytes) => return self.detail = Some(IS_TEXT.into()),
            Err(fault) => return self.detail = Some(fault),
        };
        let Some(refusal) = Refusal::from_number(self.number) else { return };
        let parts = Parts::decode(&unit);
        let place = self.place as usize;
        self.detail = detail(refusal, place, &parts, frame);
        if refusal.has_place() && place < parts.code.len() {
            self.instruction = Some(Lines::new(&parts).instruction(place));
        }
    }

    /// One line: number, place and pass.
    pub fn words(&self) -> String {
        let pass = self.pass.filter(|&pass| pass > 1).map(|pass| format!(" in pass {pass}"));
        let at = if self.instruction.is_some() { format!(" at place {}", self.place) } else { String::new() };
        format!("refused {}{at}{}", self.number, pass.unwrap_or_default())
    }

    /// The lines below the first.
    pub fn lines(&self) -> String {
        let mut lines = indented(self.meaning);
        lines.extend(self.detail.iter().map(|detail| indented(detail)));
        if let Some(instruction) = &self.instruction {
            let given = self.given_place.map(|place| format!(" ({place} in the given unit)"));
            lines += &format!("  place {}{}: {instruction}\n", self.place, given.unwrap_or_default());
        }
        lines
    }

    pub fn json(&self) -> Vec<(&'static str, Json)> {
        vec![
            ("answer", "refused".into()),
            ("number", self.number.into()),
            ("place", self.place.into()),
            ("pass", self.pass.into()),
            ("meaning", self.meaning.into()),
            ("detail", self.detail.clone().into()),
            ("instruction", self.instruction.clone().into()),
            ("given_place", self.given_place.into()),
        ]
    }
}

const IS_TEXT: &str = "they are text: lampruda assemble makes a unit of it";

/// A unit's header has bytes that are 0.
fn is_text(bytes: &[u8]) -> bool {
    !bytes.is_empty() && !bytes.contains(&0) && str::from_utf8(bytes).is_ok()
}

/// In lines of up to 80 columns.
fn indented(text: &str) -> String {
    let mut lines = String::new();
    let mut line = String::from(" ");
    for word in text.split(' ') {
        if line.len() + 1 + word.len() > 80 {
            lines += &format!("{line}\n");
            line = String::from(" ");
        }
        line += &format!(" {word}");
    }
    lines + &format!("{line}\n")
}

fn detail(refusal: Refusal, place: usize, parts: &Parts, frame: Option<usize>) -> Option<String> {
    let n = parts.code.len();
    let instruction = parts.code.get(place).copied().unwrap_or_default();
    let metadata = parts.metadata.get(place).copied().unwrap_or_default();
    let last = format!("the last place is {}", n.saturating_sub(1));
    Some(match refusal {
        Refusal::NoUnit | Refusal::ShortBuffer | Refusal::Effect | Refusal::Tariff => return None,
        Refusal::MetadataCount => {
            format!("metadata entries: {}, instructions: {n}", parts.metadata.len())
        }
        Refusal::TypeCount => format!("types: {}, local slots: {}", parts.types.len(), parts.local_slots),
        Refusal::Invalid => format!("its byte is {}", instruction.op),
        Refusal::Slot => format!("local slots, counted from 0: {}", parts.local_slots),
        // At the desk a branch may lead to the end.
        Refusal::Branch => {
            let end = format!("the function's end is {n}");
            let bound = if frame.is_some() { end } else { last };
            format!("it leads to place {}, {bound}", target(place, &instruction)?)
        }
        Refusal::LoopHint if metadata.is(Kind::LoopEnd) => {
            format!("its end is place {}, {last}", metadata.end_pc)
        }
        Refusal::LoopHint => "its metadata is not LoopEnd".into(),
        Refusal::LoopMoved if instruction.imm32() as usize > n => {
            format!("its exit is place {}, the function's end is {n}", instruction.imm32())
        }
        Refusal::LinePlaces => {
            let falls = parts.lines.windows(2).find(|pair| pair[0].place >= pair[1].place);
            match (falls, parts.lines.last()) {
                (Some([line, next]), _) => {
                    format!("place {} is followed by place {}", line.place, next.place)
                }
                (_, line) => format!("a line is on place {}, {last}", line?.place),
            }
        }
        Refusal::Frame => format!("words: {}, local slots: {}", frame?, parts.local_slots),
        Refusal::SelectCases => format!("metadata {place} is of a select of {} cases", metadata.second),
        Refusal::LoopMoved => format!("its end, place {}, is removed by this pass", metadata.end_pc),
    })
}
