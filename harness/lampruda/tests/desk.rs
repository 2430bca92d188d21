//! Runs at the desk: the smallest units on which the readings of document 02's L6 part. `beside run`, `beside likewise`
//! and `beside lay-out` compare them at scale.

mod common;

use common::{other, parts, refused, returned, rewritten, stop, unit, ENDED, EXECUTED, LIMIT};
use lampruda::sys::{self, Laid, Stop};
use lampruda::{lay_out, run_in_numbers as run, Answer, Workspace};
use text::Opcode::{self, *};
use unit::{Constant, Instruction, Kind, Metadata, Parts, Unit};
use unit::{CONSTANT_BOOL, CONSTANT_FLOAT, CONSTANT_INT, CONSTANT_NIL, CONSTANT_STRING};

fn goes(place: u32) -> Stop {
    stop(sys::GOES, place, 0)
}

fn step(unit: &[u8], frame: &mut [u64], place: u32) -> Stop {
    // Both are lent for the call alone.
    unsafe { sys::lampruda_step(unit.as_ptr(), unit.len(), frame.as_mut_ptr(), frame.len(), place) }
}

/// How a run of at most so many steps stops, and the frame then.
fn ran<const S: usize>(text: &str, mut frame: [u64; S], limit: u32) -> (Stop, [u64; S]) {
    let stop = run(&unit(text), &mut frame, limit);
    (stop, frame)
}

/// "(12, place 0: frame not s words; checked after 8, and 9 and 10 do not apply here.)" Only the frame is lent: no
/// buffer is ever too short for a CopyN.
#[test]
fn only_a_frame_is_lent() {
    let copies = ".locals 3\n CopyN 1 0 2\n Return 0 3";
    assert_eq!(ran(copies, [1, 2, 3], 9), (returned(0, 3), [1, 1, 2]));
    assert_eq!(ran(".locals 3\n CopyN 0 1 2\n Return 0 3", [1, 2, 3], 9), (returned(0, 3), [2, 3, 3]));
    assert_eq!(ran(copies, [1, 2], 9), (refused(12, 0), [1, 2]));
    assert_eq!(ran(copies, [1, 2, 3, 4], 9), (refused(12, 0), [1, 2, 3, 4]));
    assert_eq!(ran(copies, [], 9), (refused(12, 0), []));
    assert_eq!(step(&unit(copies), &mut [1, 2], 0), refused(12, 0));
    assert_eq!(step(&unit(copies), &mut [1, 2], 9), refused(12, 0));
    // Checked last, and a loop hint without an end is no matter.
    assert_eq!(ran("Jump +2", [1], 9), (refused(8, 0), [1]));
    assert_eq!(ran("Hint flags=1", [], 9), (ENDED, []));
}

/// "Short, long and defer functions run too", and 3 to 8 are looked for in them, in every instruction.
#[test]
fn all_instructions_of_all_functions_are_checked() {
    assert_eq!(ran("Return 0 1", [], 9), (refused(7, 0), []));
    assert_eq!(ran(".defer\n Return 0 1\n Hint", [], 9), (refused(7, 0), []));
    assert_eq!(ran(".defer\n .locals 1\n Return 0 1", [5], 9), (returned(0, 1), [5]));
    assert_eq!(ran(".metadata 0\n Hint", [], 9), (refused(3, 0), []));
    assert_eq!(ran(".locals 1\n .types\n Hint", [7], 9), (refused(4, 0), [7]));
    // Not reached, and not executed.
    assert_eq!(ran("Return 0 0\n op200", [], 9), (refused(5, 1), []));
    assert_eq!(ran("Return 0 0\n Call 7", [], 9), (refused(6, 1), []));
    assert_eq!(ran("Return 0 0\n AddF 0 0 0", [], 9), (refused(7, 1), []));
    assert_eq!(ran("Return 0 0\n AddF 0 0 0\n op200", [], 9), (refused(7, 1), []));
    assert_eq!(ran("Return 0 0\n Jump +5\n op200", [], 9), (refused(5, 2), []));

    let n = 65_537;
    let mut long = Parts {
        code: vec![Instruction::default(); n],
        metadata: vec![Metadata::default(); n],
        ..Parts::default()
    };
    assert_eq!(run(&long.encode(), &mut [], n as u32), ENDED);
    assert_eq!(run(&long.encode(), &mut [], n as u32 - 1), LIMIT);
    long.code[n - 1].op = 200;
    assert_eq!(run(&long.encode(), &mut [], 0), refused(5, n as u32 - 1));
}

/// "a branch to n itself, which a rewritten function may have, ends the run and is not refused"
#[test]
fn a_branch_to_n_ends_the_run() {
    assert_eq!(ran("Jump +1", [], 9), (ENDED, []));
    assert_eq!(ran(".locals 1\n JumpIfNot 0 +2\n Panic 0", [0], 9), (refused(7, 1), [0]));
    assert_eq!(ran(".locals 2\n JumpIfNot 0 +2\n Panic 0", [0, 1], 9), (ENDED, [0, 1]));
    assert_eq!(ran(".locals 1\n JumpIf 0 +1\n", [3], 1), (ENDED, [3]));
    // The lowest that leaves, and to n none does.
    let leaves = unit(".locals 1\n Jump +2\n JumpIf 0 +9");
    assert_eq!(Workspace::default().pass(&leaves), Answer::Refused { number: 8, place: 0 });
    assert_eq!(run(&leaves, &mut [1], 9), refused(8, 1));
    assert_eq!(ran("Jump -1", [], 9), (refused(8, 0), []));
    // ForLoop too, though it is not executed: from the next place on.
    assert_eq!(ran(".locals 2\n ForLoop 0 1 +1", [4, 5], 9), (other(0), [4, 5]));
    assert_eq!(ran(".locals 2\n ForLoop 0 1 +2", [4, 5], 9), (refused(8, 0), [4, 5]));
}

/// "The limit is reported exactly when that many steps are done, none of them a Return or Panic, and neither the end of
/// the code nor another instruction is due."
#[test]
fn the_limit_comes_last() {
    assert_eq!(ran("", [], 0), (ENDED, []));
    assert_eq!(ran(".locals 1\n AddF 0 0 0", [8], 0), (other(0), [8]));
    assert_eq!(ran("Return 0 0", [], 0), (LIMIT, []));
    assert_eq!(ran("Return 0 0", [], 1), (returned(0, 0), []));
    let two = ".locals 1\n LoadInt 0 7\n Return 0 1";
    assert_eq!(ran(two, [3], 0), (LIMIT, [3]));
    assert_eq!(ran(two, [3], 1), (LIMIT, [7]));
    assert_eq!(ran(two, [3], 2), (returned(0, 1), [7]));
    assert_eq!(ran(".locals 1\n LoadInt 0 7", [3], 1), (ENDED, [7]));
    assert_eq!(ran(".locals 1\n LoadInt 0 7\n AddF 0 0 0", [3], 1), (other(1), [7]));
    assert_eq!(ran("Jump +0", [], 1_000), (LIMIT, []));
    // A step has no limit; behind the last place is the end.
    assert_eq!(step(&unit(two), &mut [3], 0), goes(1));
    assert_eq!(step(&unit(two), &mut [3], 1), returned(0, 1));
    for behind in [2, 3, u32::MAX] {
        assert_eq!(step(&unit(two), &mut [3], behind), ENDED);
    }
}

/// "It answers with Return or Panic and the first slot and count of the words that it read (a and 0 for none)"
#[test]
fn return_and_panic_read_one_range() {
    assert_eq!(ran("Return 65535 0", [], 9), (returned(65_535, 0), []));
    assert_eq!(ran("Panic 65535", [], 9), (refused(6, 0), []));
    assert_eq!(ran(".locals 1\n Panic 0", [1], 9), (refused(7, 0), [1]));
    assert_eq!(ran(".locals 2\n Panic 0", [1, 2], 9), (stop(sys::PANICKED, 0, 2), [1, 2]));
    // Whatever flags, the other fields and metadata say.
    for kind in ["None", "CallLayout", "LoopEnd", "SlotLayout"] {
        let free = format!("flags=255 c=9 meta={kind} first=5 second=6 array=7 ok=1 end=8");
        assert_eq!(ran(&format!(".locals 2\n Return 1 1 {free}"), [1, 2], 9).0, returned(1, 1));
        assert_eq!(ran(&format!(".locals 2\n Panic 0 77 {free}"), [1, 2], 9).0, stop(sys::PANICKED, 0, 2));
    }
}

/// "with the place of the first other instruction": first in the run.
#[test]
fn the_first_other_instruction() {
    let backward = ".locals 1\n Jump +2\n AddF 0 0 0\n NegF 0 0";
    assert_eq!(ran(backward, [1], 9), (other(2), [1]));
    for flags in 0..=255 {
        let hint = format!(".locals 1\n Hint 9 9 9 flags={flags}\n Return 0 0");
        assert_eq!(ran(&hint, [4], 1), (LIMIT, [4]));
        assert_eq!(ran(&hint, [4], 2), (returned(0, 0), [4]));
    }

    let mut loads = parts(".locals 1\n LoadConst 0 0");
    for (kind, value, word) in [
        (CONSTANT_NIL, 77, Some(0)),
        (CONSTANT_BOOL, 1, Some(1)),
        (CONSTANT_INT, u64::MAX, Some(u64::MAX)),
        (CONSTANT_FLOAT, 0x7ff0_0000_0000_0001, Some(0x7ff0_0000_0000_0001)),
        (CONSTANT_STRING, 5, None),
    ] {
        loads.constants = vec![Constant { kind, unread: [7; 7], value }];
        let mut frame = [9];
        let stop = run(&loads.encode(), &mut frame, 9);
        let wanted = if word.is_some() { ENDED } else { other(0) };
        assert_eq!((stop, frame), (wanted, [word.unwrap_or(9)]), "kind {kind}");
    }
    loads.constants.clear();
    assert_eq!(run(&loads.encode(), &mut [9], 0), other(0));
}

/// "It executes LoadInt, LoadConst of kinds 0 to 3, Copy, CopyN, the 21 opcodes that fold, Hint, the three jumps, Return
/// and Panic."
#[test]
fn thirty_one_opcodes_are_executed() {
    let named = EXECUTED;
    assert_eq!(named.len(), 31);
    for op in 0..=255 {
        let mut parts = parts(".locals 20\n .function 1 1\n .extern 1\n .const int 3\n Hint");
        parts.code[0].op = op;
        let stops = Kind::ALL.map(|kind| {
            parts.metadata[0] = Metadata::new(kind);
            run(&parts.encode(), &mut [1; 20], 0)
        });
        let Some(opcode) = Opcode::from_u8(op) else {
            assert_eq!(stops, [refused(5, 0); 16]);
            continue;
        };
        // Of some kind its metadata is.
        let stop = stops.into_iter().find(|stop| stop.kind != sys::REFUSED);
        let wanted = if named.contains(&opcode) { LIMIT } else { other(0) };
        assert_eq!(stop, Some(wanted), "{opcode:?}");
    }
}

/// A result is no unit; laid out as one it has its own code, metadata and lines and the given unit's other sections, and
/// is not refused.
#[test]
fn a_result_is_a_unit_again() {
    let given = unit(
        ".locals 3\n .types Value*2 Float\n .const int 9\n .function 2 1\n .extern 4\n .case send 0 1 1
         Loop end=4 exit=5 line=3
         Hint line=5
         LoadConst 0 0 line=7
         JumpIf 1 end line=8
         JumpIf 1 -2
         end: Return 0 1 line=9",
    );
    let again = rewritten(&given);
    let [before, after] = [&given, &again].map(|unit| Parts::decode(&Unit::check(unit).unwrap()));
    assert_eq!(after.code.len(), before.code.len() - 1);
    assert_eq!(after.lines.len(), 4);
    let others = |parts: Parts| Parts { code: vec![], metadata: vec![], lines: vec![], ..parts };
    assert_eq!(others(before), others(after));
    assert_eq!(run(&again, &mut [1, 0, 2], 99), returned(0, 1));

    // Refused 1, 11 or 13 before it is no result, and that before there is no room.
    let none = Laid { kind: sys::LAID_NONE, number: 0, place: 0, length: 0 };
    let refused = |number, place| Laid { kind: sys::LAID_REFUSED, number, place, length: 0 };
    let mut workspace = Workspace::default();
    let Answer::Rewritten(result) = workspace.pass(&given) else { panic!("not rewritten") };
    let mut out = vec![0xa5; again.len() - 1];
    assert_eq!(lay_out(&given[1..], &[], &mut out), refused(1, 0));
    assert_eq!(lay_out(&unit(".line 1 1\n Hint"), &[], &mut out), refused(11, 0));
    assert_eq!(lay_out(&given, &result[..result.len() - 1], &mut out), none);
    assert_eq!(lay_out(&given, &[], &mut []), none);
    assert_eq!(lay_out(&unit("Hint"), result, &mut out), none);
    assert_eq!(lay_out(&given, result, &mut out), refused(2, 0));
    assert!(out.iter().all(|&byte| byte == 0xa5));
    // A longer buffer for the result, and for the unit.
    let mut out = vec![0xa5; again.len() + 3];
    assert_eq!(lay_out(&given, &[result, &[1; 5]].concat(), &mut out).length as usize, again.len());
    assert_eq!(out, [&again[..], &[0xa5; 3]].concat());
}

/// "Whenever a given function returns, panics or runs out at its end in k steps, the rewritten one, from the same frame,
/// ends likewise, with the same words read, in at most k." Not from the same slot: that need not have them any more.
#[test]
fn the_rewritten_one_ends_likewise() {
    let given = unit(".locals 2\n Copy 1 0\n Return 1 1");
    let again = rewritten(&given);
    let code: Vec<Instruction> = Unit::check(&again).unwrap().code().collect();
    assert_eq!(code, [Instruction { op: Return as u8, flags: 0, a: 0, b: 1, c: 0 }]);
    let (mut before, mut after) = ([6, 7], [6, 7]);
    assert_eq!(run(&given, &mut before, 2), returned(1, 1));
    assert_eq!(run(&again, &mut after, 2), returned(0, 1));
    assert_eq!(before[1], after[0]);
    assert_ne!(before, after);
    assert_eq!(run(&again, &mut after, 1), returned(0, 1));
    // The limit of the one is no end, and the other may end within it.
    assert_eq!(run(&given, &mut before, 1), LIMIT);

    // To the end of the code, which is a branch's target after the pass.
    let given = unit(".locals 2\n JumpIf 0 end\n Return 0 1\n end: LoadInt 1 7");
    let again = rewritten(&given);
    assert_eq!(Unit::check(&again).unwrap().code().count(), 2);
    assert_eq!(run(&given, &mut [1, 0], 2), ENDED);
    assert_eq!(run(&again, &mut [1, 0], 1), ENDED);

    let given = unit(".locals 3\n LoadInt 0 4\n LoadInt 1 5\n AddI 2 0 1\n Panic 1");
    let again = rewritten(&given);
    let (mut before, mut after) = ([0; 3], [0; 3]);
    assert_eq!(run(&given, &mut before, 4), stop(sys::PANICKED, 1, 2));
    assert_eq!(run(&again, &mut after, 4), stop(sys::PANICKED, 1, 2));
    assert_eq!(before[1..], after[1..]);
}
