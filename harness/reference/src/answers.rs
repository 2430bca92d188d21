//! From what the Rust gives back to document 01's answers.

use crate::bytecode::{FunctionDef, InstructionMetadata};
use crate::loop_hint::{is_loop_hint, LoopHint};
use crate::prepared::{metadata, select_case, Prepared};
use std::mem;
use unit::{Answer, Cleaned, Kind, Line, Metadata, Retained, Rewritten, Unit};

/// The cleaning "stops at the first pass that does not rewrite, or after 3".
const MAX_PASSES: u32 = 3;

/// One pass over a unit.
pub fn pass(bytes: &[u8]) -> Answer {
    run(bytes, 1).answer
}

/// The loop of `clean_function` over a unit.
pub fn clean(bytes: &[u8]) -> Cleaned {
    run(bytes, MAX_PASSES)
}

/// Up to `max_passes` passes. "It is unchanged if pass 1 is; otherwise it gives the last rewritten code, with
/// old places in the given unit. A refusal in any pass leaves the output untouched, its place being one of
/// that pass."
fn run(bytes: &[u8], max_passes: u32) -> Cleaned {
    let Some(unit) = Unit::check(bytes) else {
        return Cleaned { answer: Answer::NO_UNIT, pass: 1 };
    };
    if let Some(answer) = unit.refusal() {
        return Cleaned { answer, pass: 1 };
    }
    let mut prepared = Prepared::new(&unit);
    prepared.trace_old_places();
    prepared.carry_lines(&unit);
    let mut answer = Answer::Unchanged;
    for pass in 1..=max_passes {
        let before = prepared.module.functions.under_work.clone();
        match prepared.optimize_function() {
            Ok(true) => answer = Answer::rewritten(&result(&prepared, &unit)),
            Ok(false) => return Cleaned { answer, pass },
            Err(text) => {
                let cut = mem::replace(&mut prepared.module.functions.under_work, before);
                return Cleaned { answer: refusal(&prepared, &cut, &text), pass };
            }
        }
    }
    Cleaned { answer, pass: max_passes }
}

/// The function as the Rust has rewritten it. Metadata is that of the old place, byte for byte, but for the
/// LoopEnd's end_pc, which the Rust has relocated.
fn result(prepared: &Prepared, unit: &Unit) -> Rewritten {
    let FunctionDef { code, instruction_metadata, .. } = &prepared.module.functions.under_work;
    let sources = prepared.module.debug_info.inline_sources.under_work.as_ref().expect("places are traced");
    assert_eq!(code.len(), sources.entries.len());
    assert_eq!(code.len(), instruction_metadata.len());
    let given: Vec<Metadata> = unit.metadata().collect();
    let cases: Vec<_> = unit.cases().map(select_case).collect();
    let retained = code
        .iter()
        .zip(instruction_metadata)
        .zip(&sources.entries)
        .enumerate()
        .map(|(place, ((instruction, relocated), source))| {
            assert_eq!(place, source.pc as usize);
            let mut entry = given[source.frame as usize];
            if let InstructionMetadata::LoopEnd { end_pc } = *relocated {
                assert!(entry.is(Kind::LoopEnd));
                entry.end_pc = end_pc;
            } else {
                assert_eq!(metadata(entry, &cases), *relocated);
            }
            Retained { instruction: instruction.into(), metadata: entry, old_place: source.frame }
        })
        .collect();
    Rewritten { retained, lines: lines(prepared) }
}

/// The entries that `relocate_debug` has moved: "this is compared after superseded entries and those on n' are struck
/// from the Rust's list". It drops those on n' itself.
fn lines(prepared: &Prepared) -> Vec<Line> {
    let moved = prepared.module.debug_info.funcs.under_work.as_ref().expect("lines are carried");
    let mut lines: Vec<Line> = Vec::new();
    for entry in &moved.entries {
        if lines.last().is_some_and(|last| last.place == entry.pc) {
            lines.pop();
        }
        lines.push(Line { place: entry.pc, line: entry.line });
    }
    lines
}

/// The refusal that the Rust's text stands for. `prepared` is as it was before the refused pass; `cut` is the
/// function as the Rust left it.
fn refusal(prepared: &Prepared, cut: &FunctionDef, text: &str) -> Answer {
    let (number, place) = if text == "optimizer metadata length mismatch" {
        (3, 0)
    } else if text == "function has an inconsistent frame layout" {
        (4, 0)
    } else if let Some(place) = number_after(text, "invalid opcode at ") {
        (5, place)
    } else if let Some(place) = ["read", "frame", "write"]
        .iter()
        .find_map(|effect| number_after(text, &format!("invalid optimizer {effect} effect at ")))
    {
        (6, place)
    } else if let Some(place) = number_after(text, "function has an operand outside its frame at ") {
        (7, place)
    } else if let Some(place) = number_after(text, "branch at PC ") {
        (8, place)
    } else if ["loop hint has no back edge", "loop back edge is outside its function"].contains(&text) {
        (9, lowest_unsound(prepared))
    } else if let Some(exit) = number_after(text, "source PC ") {
        (10, lowest_unmoved(prepared, cut, |hint| hint.exit == exit))
    } else if let Some(end) = number_after(text, "required instruction at PC ") {
        (10, lowest_unmoved(prepared, cut, |hint| hint.end == Some(end)))
    } else {
        panic!("a refusal that document 01 does not know: {text}")
    };
    Answer::Refused { number, place }
}

/// The number that follows `prefix` at the text's start.
fn number_after(text: &str, prefix: &str) -> Option<u32> {
    let digits = text.strip_prefix(prefix)?;
    let end = digits.find(|c: char| !c.is_ascii_digit()).unwrap_or(digits.len());
    Some(digits[..end].parse().expect("the Rust's text has a place"))
}

/// "lowest reached loop hint without LoopEnd or with its end outside": the Rust names no place, and walks in
/// another order.
fn lowest_unsound(prepared: &Prepared) -> u32 {
    let hints = reached_loop_hints(prepared);
    hints.iter().find(|hint| hint.end.is_none()).expect("the Rust reached an unsound hint").place
}

/// "lowest kept loop hint whose end was removed or whose exit exceeds n": every reached loop hint is kept; the
/// Rust moves them by rising place and stops at the first that it cannot move, naming its exit or its end. Any
/// other with the same one could not be moved either, so it is the lowest that has it.
fn lowest_unmoved(prepared: &Prepared, cut: &FunctionDef, named: impl Fn(&LoopHint) -> bool) -> u32 {
    let hints = reached_loop_hints(prepared);
    let lowest = hints.iter().position(named).expect("the Rust named a reached hint's exit or end");
    // The Rust has "cut the function off before place p": the hints before it are there, and no other.
    assert_eq!(cut.code.iter().filter(|instruction| is_loop_hint(instruction)).count(), lowest);
    hints[lowest].place
}

fn reached_loop_hints(prepared: &Prepared) -> Vec<LoopHint> {
    prepared.module.reached_loop_hints().expect("the refused pass came as far as reachability")
}
