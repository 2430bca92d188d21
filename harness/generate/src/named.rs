//! Named examples: those of document 01's notebook, and the smallest units on which the documents' readings part.

use reference::Opcode;
use unit::{Case, Constant, Function, Instruction, Kind, Line, Metadata, Parts};
use unit::{CONSTANT_FLOAT, CONSTANT_INT, TYPE_FLOAT, TYPE_GC_BASE, TYPE_VALUE};

/// What the papers state of an example's answer.
#[derive(Clone, Debug)]
pub enum Stated {
    Unchanged,
    Refused {
        number: u32,
        place: u32,
    },
    /// The old place and the instruction of each new place.
    Rewritten(Vec<(u32, Instruction)>),
}

pub struct Named {
    pub name: &'static str,
    pub unit: Vec<u8>,
    pub pass: Stated,
    /// The cleaning's answer and pass number, where the papers state them.
    pub clean: Option<(Stated, u32)>,
    /// The lines of the pass's result and of the cleaning's, where they are stated.
    pub lines: Option<Vec<Line>>,
    pub cleaned_lines: Option<Vec<Line>>,
    /// Whether it is small enough for the recorded answers.
    pub recorded: bool,
}

impl Named {
    fn new(name: &'static str, parts: Parts, pass: Stated) -> Self {
        Self::of_bytes(name, parts.encode(), pass)
    }

    fn of_bytes(name: &'static str, unit: Vec<u8>, pass: Stated) -> Self {
        Self { name, unit, pass, clean: None, lines: None, cleaned_lines: None, recorded: true }
    }

    fn cleaned(self, stated: Stated, pass: u32) -> Self {
        Self { clean: Some((stated, pass)), ..self }
    }

    fn with_lines(self, lines: &[(u32, u32)]) -> Self {
        Self { lines: Some(entries(lines)), ..self }
    }

    fn with_cleaned_lines(self, lines: &[(u32, u32)]) -> Self {
        Self { cleaned_lines: Some(entries(lines)), ..self }
    }

    fn not_recorded(self) -> Self {
        Self { recorded: false, ..self }
    }
}

pub fn all() -> Vec<Named> {
    let mut named = notebook();
    named.extend(wrong_turns());
    named.extend(readings());
    named.extend(lowest_slots());
    named.extend(wide_sums());
    named.extend(refusals());
    named.extend(line_numbers());
    named.extend(many_cases());
    named.extend(large());
    named.extend(perhaps_written());
    named.extend(stores_with_readers());
    named
}

fn entries(lines: &[(u32, u32)]) -> Vec<Line> {
    lines.iter().map(|&(place, line)| Line { place, line }).collect()
}

fn op(opcode: Opcode, a: u16, b: u16, c: u16) -> Instruction {
    Instruction { op: opcode as u8, flags: 0, a, b, c }
}

fn with_flags(flags: u8, instruction: Instruction) -> Instruction {
    Instruction { flags, ..instruction }
}

fn imm32(opcode: Opcode, a: u16, value: i32) -> Instruction {
    let mut instruction = op(opcode, a, 0, 0);
    instruction.set_imm32(value as u32);
    instruction
}

fn load_int(slot: u16, value: i32) -> Instruction {
    imm32(Opcode::LoadInt, slot, value)
}

fn load_const(slot: u16, index: u16) -> Instruction {
    op(Opcode::LoadConst, slot, index, 0)
}

fn copy(to: u16, from: u16) -> Instruction {
    op(Opcode::Copy, to, from, 0)
}

fn jump(delta: i32) -> Instruction {
    imm32(Opcode::Jump, 0, delta)
}

fn jump_if(slot: u16, delta: i32) -> Instruction {
    imm32(Opcode::JumpIf, slot, delta)
}

fn give_back(slot: u16, count: u16) -> Instruction {
    op(Opcode::Return, slot, count, 0)
}

const HINT: Instruction = Instruction { op: Opcode::Hint as u8, flags: 0, a: 0, b: 0, c: 0 };

fn loop_hint(exit: u32) -> Instruction {
    with_flags(1, imm32(Opcode::Hint, 0, exit as i32))
}

/// A function of s slots, all Value, without metadata.
fn function(s: u32, code: &[Instruction]) -> Parts {
    Parts {
        code: code.to_vec(),
        metadata: vec![Metadata::default(); code.len()],
        local_slots: s,
        types: vec![TYPE_VALUE; s as usize],
        ..Parts::default()
    }
}

/// The same with a slot of another type.
fn with_type(mut parts: Parts, slot: usize, slot_type: u8) -> Parts {
    parts.types[slot] = slot_type;
    parts
}

fn with_metadata(mut parts: Parts, place: usize, metadata: Metadata) -> Parts {
    parts.metadata[place] = metadata;
    parts
}

fn with_constant(mut parts: Parts, kind: u8, value: u64) -> Parts {
    parts.constants.push(Constant::new(kind, value));
    parts
}

fn rewritten(retained: &[(u32, Instruction)]) -> Stated {
    Stated::Rewritten(retained.to_vec())
}

fn refused(number: u32, place: u32) -> Stated {
    Stated::Refused { number, place }
}

/// "Boom notebook examples"
fn notebook() -> Vec<Named> {
    use Opcode::{AddF, AddF32, AddI, CopyN};
    let sum =
        |left: i32| function(3, &[load_int(0, left), load_int(1, 1), op(AddI, 2, 0, 1), give_back(2, 1)]);
    let two = |first, second| function(4, &[first, second, give_back(2, 2)]);
    let add_f = op(AddF, 2, 0, 1);
    let nothing = |s| function(s, &[op(CopyN, 0, 0, 0), give_back(0, 0)]);
    vec![
        Named::new(
            "listing",
            function(3, &[load_int(0, 2), load_int(1, 3), op(AddI, 2, 0, 1), give_back(2, 1)]),
            rewritten(&[(2, load_int(2, 5)), (3, give_back(2, 1))]),
        ),
        Named::new(
            "known 2,147,483,646 + 1",
            sum(i32::MAX - 1),
            rewritten(&[(2, load_int(2, i32::MAX)), (3, give_back(2, 1))]),
        ),
        Named::new("known 2,147,483,647 + 1", sum(i32::MAX), Stated::Unchanged),
        Named::new(
            "AddF twice",
            two(add_f, op(AddF, 3, 0, 1)),
            rewritten(&[(0, add_f), (1, copy(3, 2)), (2, give_back(2, 2))]),
        ),
        Named::new("AddF then AddF32", two(add_f, op(AddF32, 3, 0, 1)), Stated::Unchanged),
        Named::new("operands swapped", two(add_f, op(AddF, 3, 1, 0)), Stated::Unchanged),
        Named::new(
            "branch to the new length",
            function(2, &[jump_if(0, 2), give_back(0, 1), load_int(1, 7)]),
            rewritten(&[(0, jump_if(0, 2)), (1, give_back(0, 1))]),
        )
        .cleaned(refused(8, 0), 2),
        Named::new("two dead stores", function(1, &[load_int(0, 1), load_int(0, 2)]), rewritten(&[]))
            .cleaned(rewritten(&[]), 2),
        Named::new(
            "loop end removed",
            with_metadata(
                function(1, &[loop_hint(2), load_int(0, 0), give_back(0, 0)]),
                0,
                Metadata::loop_end(1),
            ),
            refused(10, 0),
        ),
        Named::new("CopyN of 0, s = 1", nothing(1), rewritten(&[(1, give_back(0, 0))])),
        Named::new("CopyN of 0, s = 0", nothing(0), Stated::Unchanged),
    ]
}

/// "Wrong turns"
fn wrong_turns() -> Vec<Named> {
    use Opcode::{ConvI2F, CopyN};
    let flags_apart = [op(ConvI2F, 1, 0, 0), with_flags(1, op(ConvI2F, 2, 0, 0)), give_back(1, 2)];
    let one_live = [op(CopyN, 0, 2, 2), give_back(1, 1)];
    let nested = [jump_if(0, 2), jump(2), jump(1), give_back(0, 1)];
    vec![
        Named::new(
            "float 0.0 is no integer 0",
            with_constant(
                function(2, &[load_const(0, 0), jump_if(0, 2), give_back(1, 1), give_back(0, 1)]),
                CONSTANT_FLOAT,
                0,
            ),
            Stated::Unchanged,
        ),
        Named::new("flags are part of an expression", function(3, &flags_apart), Stated::Unchanged),
        Named::new("CopyN with one dead slot", function(4, &one_live), Stated::Unchanged),
        // Round 1 drops the jump at 2; the one at 1 goes in round 2, when nothing stands between any more.
        Named::new(
            "a round goes by the map of its start",
            function(1, &nested),
            rewritten(&[(0, jump_if(0, 1)), (3, give_back(0, 1))]),
        ),
    ]
}

/// The readings that the Rust decides.
fn readings() -> Vec<Named> {
    use Opcode::{AddI, Call, ForLoop};
    let hinted = |end: u32, place: usize, code: &[Instruction]| {
        with_metadata(function(1, code), place, Metadata::loop_end(end))
    };
    let wide = [load_const(0, 0), load_const(1, 0), op(AddI, 0, 0, 1), give_back(0, 1)];
    let equal = [op(AddI, 1, 0, 0), copy(1, 0), op(AddI, 0, 1, 0), give_back(0, 1)];
    let mut typed = function(3, &[copy(0, 1), copy(2, 0)]);
    typed.types[2] = TYPE_GC_BASE;
    let relocated = with_metadata(function(0, &[HINT, give_back(0, 0)]), 1, Metadata::loop_end(1));
    vec![
        Named::new(
            "a loop hint's exit is unsigned",
            with_metadata(function(0, &[HINT, loop_hint(0x8000_0000)]), 1, Metadata::loop_end(1)),
            refused(10, 1),
        ),
        Named::new(
            "ForLoop goes from the next place",
            function(1, &[op(ForLoop, 0, 0, -2_i16 as u16), give_back(0, 1)]),
            refused(8, 0),
        ),
        Named::new(
            "ForLoop to itself",
            function(1, &[op(ForLoop, 0, 0, -1_i16 as u16), give_back(0, 1)]),
            Stated::Unchanged,
        ),
        Named::new(
            "a dropped store's reads, one block",
            function(1, &[load_int(0, 0), copy(0, 0)]),
            rewritten(&[]),
        ),
        Named::new(
            "a dropped store's reads, two blocks",
            function(1, &[load_int(0, 0), jump(1), copy(0, 0)]),
            rewritten(&[(0, load_int(0, 0))]),
        ),
        Named::new(
            "blocks of the given code",
            function(1, &[load_int(0, 0), jump_if(0, 1), copy(0, 0)]),
            rewritten(&[(0, load_int(0, 0))]),
        ),
        Named::new(
            "a loop hint starts no block",
            hinted(0, 0, &[loop_hint(0), copy(0, 0)]),
            rewritten(&[(0, loop_hint(0))]),
        ),
        Named::new(
            "a loop hint adds no liveness edge",
            hinted(2, 0, &[loop_hint(0), load_int(0, 0), jump_if(0, -2)]),
            refused(10, 0),
        ),
        Named::new("no operand is replaced for a destination that is no scalar", typed, Stated::Unchanged),
        Named::new(
            "a wide sum's operands are replaced",
            with_constant(function(2, &wide), CONSTANT_INT, 1 << 30),
            rewritten(&[(0, load_const(0, 0)), (2, op(AddI, 0, 0, 0)), (3, give_back(0, 1))]),
        ),
        Named::new(
            "an equal expression that stays has its operands replaced",
            function(2, &equal),
            rewritten(&[(2, op(AddI, 0, 0, 0)), (3, give_back(0, 1))]),
        ),
        Named::new(
            "a plain hint clears",
            function(1, &[load_int(0, 0), HINT, jump_if(0, -2)]),
            rewritten(&[(0, load_int(0, 0)), (2, jump_if(0, -1))]),
        ),
        Named::new(
            "the end of a hint that is not reached",
            hinted(0, 2, &[jump(1), jump(0), loop_hint(0)]),
            rewritten(&[(1, jump(0))]),
        ),
        Named::new(
            "LoadConst of an Int is known",
            with_constant(
                function(1, &[load_const(0, 0), op(AddI, 0, 0, 0), give_back(0, 1)]),
                CONSTANT_INT,
                0,
            ),
            rewritten(&[(1, load_int(0, 0)), (2, give_back(0, 1))]),
        ),
        Named::new(
            "flags do not stop folding",
            function(1, &[load_int(0, 0), with_flags(1, op(AddI, 0, 0, 0)), give_back(0, 1)]),
            rewritten(&[(1, load_int(0, 0)), (2, give_back(0, 1))]),
        ),
        Named::new("LoopEnd of a Return is not relocated", relocated, rewritten(&[(1, give_back(0, 0))])),
        Named::new(
            "pass 2 runs on one instruction",
            function(1, &[HINT, give_back(0, 1)]),
            rewritten(&[(1, give_back(0, 1))]),
        )
        .cleaned(rewritten(&[(1, give_back(0, 1))]), 2),
        Named::new(
            "a call past the section",
            function(1, &[op(Call, 0, 0, 0), give_back(0, 1)]),
            refused(6, 0),
        ),
        Named::new(
            "the function under work is no entry",
            Parts {
                functions: vec![Function { param_slots: 0, ret_slots: 0 }],
                ..function(1, &[op(Call, 1, 0, 0), give_back(0, 1)])
            },
            refused(6, 0),
        ),
    ]
}

/// Document 02, L1: "the lowest-numbered is used".
fn lowest_slots() -> Vec<Named> {
    use Opcode::AddF;
    let add_f = |to| op(AddF, to, 0, 1);
    let all = give_back(0, 5);
    let moved = [add_f(2), copy(3, 2), load_int(2, 0), add_f(4), all];
    let loop_back = [copy(0, 1), jump_if(1, -1), give_back(1, 1)];
    vec![
        Named::new(
            "a higher slot's copy is read from the lower",
            function(2, &[copy(1, 0), give_back(1, 1)]),
            rewritten(&[(1, give_back(0, 1))]),
        ),
        Named::new(
            "the lower slot is the operand's own",
            function(2, &[copy(0, 1), give_back(0, 1)]),
            Stated::Unchanged,
        ),
        Named::new(
            "an operand that was never stored is replaced",
            function(2, &[copy(0, 1), give_back(1, 1)]),
            rewritten(&[(0, copy(0, 1)), (1, give_back(0, 1))]),
        ),
        Named::new(
            "the lowest was overwritten",
            function(4, &[copy(0, 3), copy(1, 3), load_int(0, 5), give_back(3, 1)]),
            rewritten(&[(0, copy(0, 3)), (1, copy(1, 0)), (3, give_back(1, 1))]),
        ),
        Named::new(
            "the lowest was overwritten and restored",
            function(4, &[copy(0, 3), load_int(0, 5), copy(0, 3), give_back(3, 1)]),
            rewritten(&[(2, copy(0, 3)), (3, give_back(0, 1))]),
        ),
        Named::new(
            "a lower slot of another type",
            with_type(function(3, &[copy(0, 2), copy(1, 2), give_back(2, 1)]), 0, TYPE_FLOAT),
            rewritten(&[(1, copy(1, 2)), (2, give_back(1, 1))]),
        ),
        Named::new(
            "a slot that is no scalar stands for itself",
            with_type(function(3, &[copy(0, 1), copy(2, 1), give_back(0, 3)]), 1, TYPE_GC_BASE),
            Stated::Unchanged,
        ),
        Named::new(
            "an equal expression goes by its destination's type",
            with_type(function(5, &[add_f(2), add_f(3), add_f(4), all]), 2, TYPE_FLOAT),
            rewritten(&[(0, add_f(2)), (1, add_f(3)), (2, copy(4, 3)), (3, all)]),
        ),
        Named::new(
            "an equal expression whose first slot was overwritten",
            function(5, &moved),
            rewritten(&[(0, add_f(2)), (1, copy(3, 2)), (2, load_int(2, 0)), (3, copy(4, 3)), (4, all)]),
        ),
        Named::new(
            "an equal expression that its destination holds",
            function(3, &[add_f(2), add_f(2), give_back(2, 1)]),
            rewritten(&[(0, add_f(2)), (1, copy(2, 2)), (2, give_back(2, 1))]),
        ),
        Named::new(
            "LoadInt of a value that is held",
            function(2, &[load_int(0, 5), load_int(1, 5), give_back(0, 2)]),
            Stated::Unchanged,
        ),
        Named::new(
            "a conditional jump goes by the lowest slot",
            function(2, &loop_back),
            rewritten(&[(0, copy(0, 1)), (1, jump_if(0, -1)), (2, give_back(1, 1))]),
        ),
        Named::new(
            "a clearing between",
            function(2, &[copy(0, 1), HINT, give_back(1, 1)]),
            rewritten(&[(2, give_back(1, 1))]),
        ),
    ]
}

/// Document 02, L2: "LoadInt if it fits; else Copy from the slot of L1 that holds the same known integer in the same type; else the
/// instruction stays".
fn wide_sums() -> Vec<Named> {
    use Opcode::{AddI, And, NegI};
    let all = give_back(0, 4);
    let held = [load_const(0, 0), load_const(1, 1), op(AddI, 3, 1, 1), all];
    let sums = |first_kind| {
        let parts = with_constant(function(4, &held), first_kind, 1 << 40);
        with_constant(parts, CONSTANT_INT, 1 << 39)
    };
    let small = [load_int(0, 4), load_int(1, 2), op(AddI, 2, 1, 1), give_back(0, 3)];
    let lowest = [load_const(0, 0), load_const(1, 0), load_const(2, 1), op(AddI, 3, 2, 2), all];
    let twice = with_constant(function(4, &lowest), CONSTANT_INT, 1 << 40);
    let negated = function(1, &[load_const(0, 0), op(NegI, 0, 0, 0), give_back(0, 1)]);
    let hinted = function(1, &[load_const(0, 0), HINT, op(And, 0, 0, 0), give_back(0, 1)]);
    vec![
        Named::new(
            "a wide sum that a slot holds",
            sums(CONSTANT_INT),
            rewritten(&[(0, load_const(0, 0)), (1, load_const(1, 1)), (2, copy(3, 0)), (3, all)]),
        ),
        Named::new(
            "a wide sum that two slots hold",
            with_constant(twice, CONSTANT_INT, 1 << 39),
            rewritten(&[
                (0, load_const(0, 0)),
                (1, load_const(1, 0)),
                (2, load_const(2, 1)),
                (3, copy(3, 0)),
                (4, all),
            ]),
        ),
        Named::new(
            "a wide sum that a slot of another type holds",
            with_type(sums(CONSTANT_INT), 3, TYPE_FLOAT),
            Stated::Unchanged,
        ),
        Named::new("a float constant of a wide sum's bits", sums(CONSTANT_FLOAT), Stated::Unchanged),
        Named::new(
            "LoadInt of a sum that a slot holds",
            function(3, &small),
            rewritten(&[(0, load_int(0, 4)), (1, load_int(1, 2)), (2, load_int(2, 4)), (3, give_back(0, 3))]),
        ),
        Named::new(
            "a wide result that its destination holds",
            with_constant(negated, CONSTANT_INT, 1 << 63),
            rewritten(&[(0, load_const(0, 0)), (1, copy(0, 0)), (2, give_back(0, 1))]),
        ),
        Named::new(
            "a wide result that pass 2 knows",
            with_constant(hinted, CONSTANT_INT, 1 << 31),
            rewritten(&[(0, load_const(0, 0)), (2, op(And, 0, 0, 0)), (3, give_back(0, 1))]),
        )
        .cleaned(rewritten(&[(0, load_const(0, 0)), (2, copy(0, 0)), (3, give_back(0, 1))]), 3),
    ]
}

/// Refusals and their order where a reader may doubt them.
fn refusals() -> Vec<Named> {
    let with_case = |kind, has_ok| Parts {
        cases: vec![Case { kind, has_ok, ..Case::default() }],
        ..function(1, &[HINT, give_back(0, 1)])
    };
    let one_too_many = Metadata { first: 1, second: 1, ..Metadata::new(Kind::SelectExecLayout) };
    // The Rust walks from the branch's target first and gives no place.
    let unsound = [jump_if(0, 3), loop_hint(0), give_back(0, 1), loop_hint(0)];
    let behind_jump = [jump(2), loop_hint(0), loop_hint(0), give_back(0, 0)];
    let removed = |first: u32, second: u32| {
        let code = [loop_hint(first), loop_hint(second), load_int(0, 0), give_back(0, 0)];
        let ends = with_metadata(function(1, &code), 0, Metadata::loop_end(3));
        with_metadata(ends, 1, Metadata::loop_end(2))
    };
    vec![
        Named::new("has_ok of a send case is 0 or 1", with_case(Case::SEND, 2), refused(1, 0))
            .cleaned(refused(1, 0), 1),
        Named::new("a case of kind 2", with_case(2, 0), refused(1, 0)),
        Named::new(
            "first case plus number one too many",
            with_metadata(with_case(Case::RECEIVE, 1), 0, one_too_many),
            refused(1, 0),
        ),
        Named::new("no instruction", function(0, &[]), Stated::Unchanged).cleaned(Stated::Unchanged, 1),
        Named::new(
            "defer comes before a wrong count of types",
            Parts { defer: 1, types: vec![], ..function(1, &[HINT, HINT]) },
            Stated::Unchanged,
        ),
        Named::new(
            "a wrong count of metadata comes before one of types",
            Parts { metadata: vec![], types: vec![], ..function(1, &[HINT, HINT]) },
            refused(3, 0),
        ),
        Named::new("types are not s", Parts { types: vec![], ..function(1, &[HINT, HINT]) }, refused(4, 0)),
        Named::new("an unreachable branch leaves", function(0, &[give_back(0, 0), jump(1)]), refused(8, 1)),
        Named::new("the lowest of two unsound hints", function(1, &unsound), refused(9, 1)),
        Named::new("an unsound hint that is not reached", function(1, &behind_jump), refused(9, 2)),
        Named::new("the lowest hint that cannot be moved, by its end", removed(4, 5), refused(10, 1)),
        Named::new("the lowest hint that cannot be moved, by its exit", removed(5, 4), refused(10, 0)),
        Named::new("exits at n", removed_nothing(), rewritten(&[(1, loop_hint(2)), (2, give_back(0, 0))])),
    ]
}

/// A sound loop hint with its exit at n, and a plain hint that goes.
fn removed_nothing() -> Parts {
    with_metadata(function(0, &[HINT, loop_hint(3), give_back(0, 0)]), 1, Metadata::loop_end(2))
}

/// Document 02, L3: "Line numbers travel with the code".
fn line_numbers() -> Vec<Named> {
    let lined = |parts: Parts, lines: &[(u32, u32)]| Parts { lines: entries(lines), ..parts };
    let kept_last = || function(1, &[load_int(0, 0), give_back(0, 0)]);
    let last = || rewritten(&[(1, give_back(0, 0))]);
    let none_kept = function(1, &[load_int(0, 1), load_int(0, 2)]);
    let nothing_to_do = function(1, &[load_int(0, 1), give_back(0, 1)]);
    // Pass 1 removes what reads slot 1, and pass 2 what stores it.
    let branch = [load_int(1, 5), jump_if(0, 2), copy(2, 1), give_back(0, 1)];
    let no_lines = kept_last().encode();
    // The header's last two words left out, as before L3, and an empty section's offset one too high.
    let mut short = no_lines.clone();
    short.drain(64..72);
    for offset in (36..64).step_by(4) {
        short[offset] -= 8;
    }
    let mut moved = no_lines.clone();
    moved[68] += 1;
    vec![
        Named::new("a line stays where its instruction goes", lined(kept_last(), &[(0, 1)]), last())
            .with_lines(&[(0, 1)])
            .cleaned(last(), 2)
            .with_cleaned_lines(&[(0, 1)]),
        Named::new("the later line supersedes", lined(kept_last(), &[(0, 1), (1, 2)]), last())
            .with_lines(&[(0, 2)]),
        Named::new("lines on n' are dropped", lined(none_kept, &[(0, 1), (1, 2)]), rewritten(&[]))
            .with_lines(&[]),
        Named::new("an unchanged function has its lines", lined(nothing_to_do, &[(0, 5)]), Stated::Unchanged),
        Named::new(
            "lines over three passes",
            lined(function(3, &branch), &[(0, 1), (1, 2), (2, 3), (3, 4)]),
            rewritten(&[(0, load_int(1, 5)), (1, jump_if(0, 1)), (3, give_back(0, 1))]),
        )
        .with_lines(&[(0, 1), (1, 2), (2, 4)])
        .cleaned(rewritten(&[(1, jump_if(0, 1)), (3, give_back(0, 1))]), 3)
        .with_cleaned_lines(&[(0, 2), (1, 4)]),
        Named::of_bytes("a header of 64 bytes", short, refused(1, 0)),
        Named::of_bytes("an empty section's offset", moved, refused(1, 0)),
        Named::new("two lines on one place", lined(kept_last(), &[(1, 1), (1, 2)]), refused(11, 0))
            .cleaned(refused(11, 0), 1),
        Named::new("falling lines", lined(kept_last(), &[(1, 1), (0, 2)]), refused(11, 0)),
        Named::new("a line on place n", lined(kept_last(), &[(2, 1)]), refused(11, 0)),
        Named::new("a line without an instruction", lined(function(0, &[]), &[(0, 1)]), refused(11, 0)),
        Named::new(
            "lines come before defer",
            Parts { defer: 1, ..lined(kept_last(), &[(1, 1), (1, 2)]) },
            refused(11, 0),
        ),
        Named::new(
            "lines come before counts",
            Parts { metadata: vec![], ..lined(kept_last(), &[(2, 1)]) },
            refused(11, 0),
        ),
    ]
}

/// Document 02, L9: a select has up to 24 cases.
fn many_cases() -> Vec<Named> {
    let select = |cases| Metadata { second: cases, ..Metadata::new(Kind::SelectExecLayout) };
    let room_for = |cases| Parts {
        cases: vec![Case { kind: Case::RECEIVE, elem_slots: 1, ..Case::default() }; cases],
        ..function(2, &[op(Opcode::SelectExec, 1, 0, 0), give_back(0, 1)])
    };
    let of_cases = |cases| with_metadata(room_for(cases), 0, select(cases as u32));
    let extra = |code: &[Instruction], metadata: &[Metadata]| Parts {
        metadata: metadata.to_vec(),
        cases: vec![Case::default(); 25],
        ..function(1, code)
    };
    let none = Metadata::default();
    vec![
        Named::new("24 select cases", of_cases(24), Stated::Unchanged),
        Named::new("25 select cases", of_cases(25), refused(13, 0)).cleaned(refused(13, 0), 1),
        Named::new(
            "25 select cases of no instruction",
            extra(&[], &[none, none, select(25)]),
            refused(13, 2),
        ),
        Named::new(
            "25 select cases come before a wrong count of metadata",
            extra(&[HINT, HINT], &[none, none, select(25)]),
            refused(13, 2),
        ),
        Named::new(
            "the lowest of two selects with too many cases",
            extra(&[HINT, HINT, HINT], &[none, select(25), select(25)]),
            refused(13, 1),
        ),
        Named::new("25 select cases come before defer", Parts { defer: 1, ..of_cases(25) }, refused(13, 0)),
        Named::new(
            "a damaged entry comes before 25 select cases",
            Parts { types: vec![6, 0], ..of_cases(25) },
            refused(1, 0),
        ),
        Named::new(
            "lines come before 25 select cases",
            Parts { lines: entries(&[(2, 1)]), ..of_cases(25) },
            refused(11, 0),
        ),
        Named::new(
            "25 entries in the case section, and no such select",
            with_metadata(room_for(25), 0, select(1)),
            Stated::Unchanged,
        ),
    ]
}

/// Examples too large for the recorded answers.
fn large() -> Vec<Named> {
    vec![
        Named::new("sixteen jumps", row_of_jumps(16), row_without_jumps(16, &[])).not_recorded(),
        Named::new("seventeen jumps: one stays", row_of_jumps(17), row_without_jumps(17, &[17]))
            .not_recorded(),
        Named::new("n = 65,536 is worked on", hints(65_536), rewritten(&[])).not_recorded(),
        Named::new("n = 65,537 is unchanged", hints(65_537), Stated::Unchanged).not_recorded(),
        Named::new(
            "lines come before n = 65,537",
            Parts { lines: entries(&[(65_537, 1)]), ..hints(65_537) },
            refused(11, 0),
        )
        .not_recorded(),
    ]
}

fn hints(n: usize) -> Parts {
    function(0, &vec![HINT; n])
}

/// "Sixteen jumps in a row to the place after them, each also branched to"
fn row_of_jumps(jumps: i32) -> Parts {
    let branches = (0..jumps).map(|_| jump_if(0, jumps));
    let row = (0..jumps).map(|place| jump(jumps - place));
    let code: Vec<_> = branches.chain(row).chain([give_back(0, 1)]).collect();
    function(1, &code)
}

/// The row's branches and Return, with only the jumps at these old places between them.
fn row_without_jumps(jumps: i32, kept: &[u32]) -> Stated {
    let row = jumps;
    let end = row + kept.len() as i32;
    let mut retained: Vec<(u32, Instruction)> = (0..jumps)
        .map(|place| {
            let jump = (row + place) as u32;
            let target = row + kept.iter().filter(|&&old| old < jump).count() as i32;
            (place as u32, jump_if(0, target - place))
        })
        .collect();
    retained.extend(kept.iter().map(|&old| (old, jump(1))));
    retained.push(((row + jumps) as u32, give_back(0, 1)));
    assert_eq!(retained.len() as i32, end + 1);
    Stated::Rewritten(retained)
}

/// Document 02, L5: what SelectExec's receive cases receive and MapIterNext's key and value are perhaps written. Each
/// starts with a store, which stays exactly if its slot is read after it.
fn perhaps_written() -> Vec<Named> {
    use Opcode::{MapGet, MapIterNext, QueueRecv, SelectExec};
    let receive = |slot, elem_slots, has_ok| Case { kind: Case::RECEIVE, has_ok, queue: 2, slot, elem_slots };
    let send = |slot| Case { kind: Case::SEND, queue: 2, slot, elem_slots: 1, ..Case::default() };
    let layout = |cases: usize| Metadata { second: cases as u32, ..Metadata::new(Kind::SelectExecLayout) };
    // SelectExec 1 with these cases, in five slots.
    let select = |stored: u16, cases: &[Case], returned: u16| {
        let code = [load_int(stored, 0), op(SelectExec, 1, 0, 0), give_back(returned, 1)];
        Parts { cases: cases.to_vec(), ..with_metadata(function(5, &code), 1, layout(cases.len())) }
    };
    // MapIterNext with its iterator in 2 to 8, key and value from slot a on, in eleven slots.
    let next = |stored: u16, a: u16, flag: u16, returned: u16| {
        let code = [load_int(stored, 0), op(MapIterNext, a, 2, flag), give_back(returned, 1)];
        let layout = Metadata { first: 1, second: 1, ..Metadata::new(Kind::MapIterNext) };
        with_metadata(function(11, &code), 1, layout)
    };
    let between = |stored: u16, instruction: Instruction, metadata: Metadata| {
        with_metadata(function(4, &[load_int(stored, 0), instruction, give_back(stored, 1)]), 1, metadata)
    };
    let two_blocks = [load_int(0, 0), jump(1), op(SelectExec, 1, 0, 0), jump(1), give_back(0, 1)];
    let two_blocks =
        Parts { cases: vec![receive(0, 1, 0)], ..with_metadata(function(5, &two_blocks), 2, layout(1)) };
    let stays = |name, parts: Parts| Named::new(name, parts, Stated::Unchanged);
    let goes = |name, parts: Parts| {
        let stated = rewritten(&[(1, parts.code[1]), (2, parts.code[2])]);
        Named::new(name, parts, stated)
    };
    vec![
        stays("a store before a select that may receive into its slot", select(0, &[receive(0, 1, 0)], 0)),
        stays("a store into the slot of has_ok", select(4, &[receive(3, 1, 1)], 4)),
        stays("all cases receive into one slot", select(0, &[receive(0, 1, 0), receive(0, 1, 0)], 0)),
        stays("a send case and a receive case", select(0, &[send(3), receive(0, 1, 0)], 0)),
        stays("what a send case sends is read", select(0, &[send(0)], 2)),
        goes("a receive destination is no read", select(0, &[receive(0, 1, 0)], 2)),
        goes("the chosen index is surely written", select(1, &[receive(0, 1, 0)], 1)),
        goes("a slot that a select surely and perhaps writes", select(1, &[receive(1, 1, 0)], 1)),
        Named::new(
            "a store before a select in the next block",
            two_blocks,
            rewritten(&[(0, load_int(0, 0)), (2, op(SelectExec, 1, 0, 0)), (4, give_back(0, 1))]),
        ),
        Named::new(
            "a receive destination outside the frame",
            select(0, &[receive(4, 1, 1)], 0),
            refused(7, 1),
        ),
        Named::new(
            "a receive destination past the slots",
            select(0, &[receive(65_535, 1, 1)], 0),
            refused(6, 1),
        ),
        stays("a store before MapIterNext into its slot", next(0, 0, 10, 0)),
        stays("a store into a map's value slot", next(1, 0, 10, 1)),
        goes("MapIterNext's key and value are no read", next(0, 0, 10, 10)),
        goes("MapIterNext's flag is surely written", next(10, 0, 10, 10)),
        goes("a slot that MapIterNext surely and perhaps writes", next(1, 0, 1, 1)),
        Named::new("key and value outside the frame", next(0, 10, 0, 0), refused(7, 1)),
        Named::new(
            "key and value past the slots, the flag outside the frame",
            next(0, 65_535, 11, 0),
            refused(6, 1),
        ),
        goes(
            "QueueRecv surely writes",
            between(0, op(QueueRecv, 0, 2, 0), Metadata { first: 1, ..Metadata::new(Kind::QueueLayout) }),
        ),
        goes(
            "MapGet's ok slot is surely written",
            between(
                1,
                op(MapGet, 0, 2, 3),
                Metadata { first: 1, second: 1, has_ok: 1, ..Metadata::new(Kind::MapGet) },
            ),
        ),
    ]
}

/// Document 02, L7: a store remains exactly if it has a reader.
fn stores_with_readers() -> Vec<Named> {
    use Opcode::{AddF, CopyN};
    let add = |to, from| op(AddF, to, from, from);
    let end = give_back(2, 1);
    let pair = op(CopyN, 0, 4, 2);
    let turn = [add(1, 0), add(0, 2), jump_if(3, -2), give_back(1, 1)];
    let over = [add(0, 1), jump(1), add(0, 3), add(4, 0), end];
    let hinted = function(4, &[add(0, 1), loop_hint(3), end, give_back(0, 1)]);
    let decided = [add(1, 2), load_int(0, 1), jump_if(0, 1), add(3, 1), end];
    vec![
        Named::new("a store that the next turn reads", function(4, &turn), Stated::Unchanged),
        Named::new(
            "a store that it reads itself after a turn",
            function(4, &[op(AddF, 0, 0, 1), jump_if(3, -1), end]),
            Stated::Unchanged,
        ),
        Named::new(
            "a store that reads its own slot once",
            function(4, &[op(AddF, 0, 0, 1), end]),
            rewritten(&[(1, end)]),
        ),
        Named::new(
            "a store that a dropped store of its block reads",
            function(4, &[add(1, 0), add(3, 1), end]),
            rewritten(&[(2, end)]),
        ),
        Named::new(
            "a store that a dropped store of another block reads",
            function(4, &[add(1, 0), jump(1), add(3, 1), end]),
            rewritten(&[(0, add(1, 0)), (3, end)]),
        )
        .cleaned(rewritten(&[(3, end)]), 3),
        Named::new(
            "a store that a dropped store of the next block reads",
            function(6, &[jump_if(5, 2), add(1, 2), add(3, 1), end]),
            rewritten(&[(0, jump_if(5, 2)), (1, add(1, 2)), (3, end)]),
        )
        .cleaned(rewritten(&[(0, jump_if(5, 1)), (3, end)]), 3),
        Named::new(
            "a store that is read behind a decided branch",
            function(4, &decided),
            rewritten(&[(0, add(1, 2)), (4, end)]),
        )
        .cleaned(rewritten(&[(4, end)]), 3),
        Named::new("a store that a dropped store overwrites", function(5, &over), rewritten(&[(4, end)])),
        Named::new(
            "a store that is read behind a loop hint's exit",
            with_metadata(hinted, 1, Metadata::loop_end(2)),
            rewritten(&[(1, loop_hint(2)), (2, end), (3, give_back(0, 1))]),
        ),
        Named::new(
            "CopyN of which one slot is read",
            function(8, &[pair, add(0, 6), give_back(0, 2)]),
            Stated::Unchanged,
        ),
        Named::new(
            "CopyN of which no slot is read",
            function(8, &[pair, add(0, 6), add(1, 7), give_back(0, 2)]),
            rewritten(&[(1, add(0, 6)), (2, add(1, 7)), (3, give_back(0, 2))]),
        ),
        Named::new(
            "CopyN into a slot that is no scalar",
            with_type(function(8, &[pair, end]), 1, TYPE_GC_BASE),
            Stated::Unchanged,
        ),
        Named::new("CopyN of no slot", function(4, &[op(CopyN, 0, 0, 0), end]), rewritten(&[(1, end)])),
    ]
}
