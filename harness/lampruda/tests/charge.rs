//! Charged runs at the desk: the smallest units on which the readings of document 02's L12 part. `beside charge` and
//! `beside never-above` compare them at scale, and the first has the highest charge of all.

mod common;

use common::{other, parts, refused, returned, rewritten, stop, unit, ENDED, EXECUTED, LIMIT};
use lampruda::sys::{self, Charged, Stop};
use lampruda::{charge_in_numbers as charge, run_in_numbers as run, PRICES};
use text::Opcode::{self, *};
use unit::{Kind, Metadata, Unit};

/// One price for all opcodes but these.
fn tariff<const N: usize>(price: u16, but: [(Opcode, u16); N]) -> Vec<u16> {
    let mut tariff = vec![price; PRICES];
    but.into_iter().for_each(|(opcode, price)| tariff[opcode as usize] = price);
    tariff
}

/// How a charged run stops, and what it costs. But for the charge it is the run.
fn charged<const S: usize>(unit: &[u8], frame: [u64; S], limit: u32, tariff: &[u16]) -> (Stop, u64) {
    let (mut frame_of_run, mut frame_after) = (frame, frame);
    let charged = charge(unit, &mut frame_after, limit, tariff);
    assert_eq!((run(unit, &mut frame_of_run, limit), frame_of_run), (charged.stop(), frame_after));
    (charged.stop(), charged.cents)
}

/// "A tariff holds 256 prices of 16 bits, one per opcode byte": of all bytes, and whatever else an instruction holds.
#[test]
fn one_price_per_opcode_byte() {
    for op in 0..=255 {
        let mut parts = parts(".locals 20\n .function 1 1\n .extern 1\n .const int 3\n Hint");
        parts.code[0].op = op;
        let mut tariff = tariff(u16::MAX, []);
        tariff[usize::from(op)] = 2_000;
        // Of some kind its metadata is.
        let charges = Kind::ALL.map(|kind| {
            parts.metadata[0] = Metadata::new(kind);
            charged(&parts.encode(), [1; 20], 1, &tariff)
        });
        let charge = charges.into_iter().find(|(stop, _)| stop.kind != sys::REFUSED);
        let cents = match Opcode::from_u8(op) {
            Some(opcode) if EXECUTED.contains(&opcode) => Some(2),
            Some(_) => Some(0),
            None => None,
        };
        assert_eq!(charge.map(|(_, cents)| cents), cents, "{op}");
    }
    let flags = unit("Hint 1 2 3 flags=255\n Hint");
    assert_eq!(charged(&flags, [], 9, &tariff(0, [(Hint, 1_000)])), (ENDED, 2));
}

/// "the price of all executed instructions": Return, Panic, hints and a jump to n are, the end and the other instruction
/// that is met are not.
#[test]
fn the_steps_are_charged() {
    let cent = tariff(1_000, []);
    assert_eq!(charged(&unit("Return 0 0"), [], 9, &cent), (returned(0, 0), 1));
    assert_eq!(charged(&unit(".locals 2\n Panic 0"), [1, 2], 9, &cent), (stop(sys::PANICKED, 0, 2), 1));
    for flags in 0..=255 {
        assert_eq!(charged(&unit(&format!("Hint flags={flags}")), [], 9, &cent), (ENDED, 1));
    }
    assert_eq!(charged(&unit("Jump +1"), [], 9, &cent), (ENDED, 1));
    assert_eq!(charged(&unit(".locals 1\n JumpIf 0 +1"), [0], 9, &cent), (ENDED, 1));
    assert_eq!(charged(&unit(".locals 1\n JumpIf 0 +1"), [1], 9, &cent), (ENDED, 1));
    // No steps.
    assert_eq!(charged(&unit(""), [], 9, &cent), (ENDED, 0));
    assert_eq!(charged(&unit(".locals 1\n AddF 0 0 0"), [1], 9, &cent), (other(0), 0));
    // Not those that are jumped over, and each as often as it is executed.
    assert_eq!(charged(&unit("Jump +2\n Hint\n Return 0 0"), [], 9, &cent), (returned(0, 0), 2));
    let thrice = unit(".locals 2\n next: SubI 0 0 1\n JumpIf 0 next\n Return 0 0");
    assert_eq!(
        charged(&thrice, [3, 1], 9, &tariff(0, [(SubI, 2_000), (Return, 5_000)])),
        (returned(0, 0), 11)
    );
}

/// "divided by 1,000 and rounded up to a whole cent": the sum, and once.
#[test]
fn rounded_up_once() {
    for (price, once, thrice) in [
        (0, 0, 0),
        (1, 1, 1),
        (333, 1, 1),
        (334, 1, 2),
        (999, 1, 3),
        (1_000, 1, 3),
        (1_001, 2, 4),
        (1_999, 2, 6),
        (65_535, 66, 197),
    ] {
        let tariff = tariff(price, []);
        assert_eq!(charged(&unit("Hint"), [], 9, &tariff), (ENDED, once));
        assert_eq!(charged(&unit("Hint\n Hint\n Return 0 0"), [], 9, &tariff), (returned(0, 0), thrice));
    }
}

/// "A charge goes with every answer but a refusal, limit and other too."
#[test]
fn unfinished_runs_are_charged() {
    assert_eq!(charged(&unit("Jump +0"), [], 1_000, &tariff(7, [])), (LIMIT, 7));
    assert_eq!(charged(&unit("Jump +0"), [], 1_001, &tariff(7, [])), (LIMIT, 8));
    let two = unit(".locals 1\n LoadInt 0 7\n Return 0 1");
    let price = tariff(0, [(LoadInt, 3_000), (Return, 4_000)]);
    assert_eq!(charged(&two, [3], 0, &price), (LIMIT, 0));
    assert_eq!(charged(&two, [3], 1, &price), (LIMIT, 3));
    assert_eq!(charged(&two, [3], 2, &price), (returned(0, 1), 7));
    let met = unit(".locals 1\n LoadInt 0 7\n AddF 0 0 0");
    assert_eq!(charged(&met, [3], 1, &tariff(3_000, [])), (other(1), 3));
    assert_eq!(charged(&met, [3], 9, &tariff(3_000, [])), (other(1), 3));
}

/// "(15, place 0: tariff not 256 prices; checked after 12.)" Any other count is, and a refusal costs nothing and alters
/// no frame.
#[test]
fn tariffs_of_256_prices() {
    let refusal = |text: &str, frame: &mut [u64], prices: usize| {
        let given = frame.to_vec();
        let charged = charge(&unit(text), frame, 9, &vec![1_000; prices]);
        assert_eq!((charged.cents, &given[..]), (0, &*frame));
        charged.stop()
    };
    for prices in [0, 1, 128, 255, 257, 512, 65_792] {
        assert_eq!(refusal(".locals 1\n LoadInt 0 7\n Return 0 1", &mut [3], prices), refused(15, 0));
        // Whatever the run would do.
        assert_eq!(refusal("", &mut [], prices), refused(15, 0));
        assert_eq!(refusal(".locals 1\n AddF 0 0 0", &mut [3], prices), refused(15, 0));
    }
    for prices in [255, 256, 257] {
        assert_eq!(refusal(".locals 1\n LoadInt 0 7", &mut [3, 4], prices), refused(12, 0));
        assert_eq!(refusal(".locals 1\n LoadInt 0 7", &mut [], prices), refused(12, 0));
        assert_eq!(refusal("Hint\n Jump +2", &mut [], prices), refused(8, 1));
        assert_eq!(refusal("Hint\n Return 0 1", &mut [], prices), refused(7, 1));
        assert_eq!(refusal("Hint\n Call 7", &mut [], prices), refused(6, 1));
        assert_eq!(refusal("Hint\n op200", &mut [], prices), refused(5, 1));
        assert_eq!(refusal(".locals 1\n .types\n Hint", &mut [3], prices), refused(4, 0));
        assert_eq!(refusal(".metadata 0\n Hint", &mut [], prices), refused(3, 0));
        assert_eq!(refusal(".line 1 1\n Hint", &mut [], prices), refused(11, 0));
        assert_eq!(charge(&[1], &mut [], 9, &vec![1_000; prices]).stop(), refused(1, 0));
    }
}

/// The wrapper says the same.
#[test]
fn from_rust() {
    let unit = unit(".locals 1\n LoadInt 0 7\n Return 0 1");
    let mut frame = [3];
    let charged = lampruda::charge(&unit, &mut frame, 9, &tariff(501, []));
    let returned = lampruda::Stop::Returned { first: 0, count: 1 };
    assert_eq!((charged, frame), (lampruda::Charged { stop: returned, cents: 2 }, [7]));
    let charged = lampruda::charge(&unit, &mut frame, 9, &[]);
    let refused = lampruda::Stop::Refused { number: 15, place: 0 };
    assert_eq!(charged, lampruda::Charged { stop: refused, cents: 0 });
}

/// The charges for a function and for what one pass makes of it.
fn charges<const S: usize>(text: &str, frame: [u64; S], limit: u32, tariff: &[u16]) -> [u64; 2] {
    let given = unit(text);
    [&given, &rewritten(&given)].map(|unit| charged(unit, frame, limit, tariff).1)
}

fn opcodes(unit: &[u8]) -> Vec<Opcode> {
    Unit::check(unit).unwrap().code().map(|code| Opcode::from_u8(code.op).unwrap()).collect()
}

/// "If LoadInt and Copy cost no more than any unary or binary pure opcode, and Jump no more than either conditional
/// jump": a thousandth above one of them, and the rewritten function costs more.
#[test]
fn no_price_premise_can_be_left_out() {
    let folds = ".locals 2\n LoadInt 0 5\n Not 1 0\n Return 0 2";
    assert_eq!(opcodes(&rewritten(&unit(folds))), [LoadInt, LoadInt, Return]);
    assert_eq!(charges(folds, [0; 2], 3, &tariff(1_000, [(Copy, 0), (Not, 1_000), (Return, 1)])), [3, 3]);
    assert_eq!(charges(folds, [0; 2], 3, &tariff(1_000, [(Copy, 0), (Not, 999), (Return, 1)])), [2, 3]);

    let repeats = ".locals 2\n Not 1 0\n Not 0 0\n Return 0 2";
    assert_eq!(opcodes(&rewritten(&unit(repeats))), [Not, Copy, Return]);
    assert_eq!(charges(repeats, [0; 2], 3, &tariff(1_000, [(LoadInt, 0), (Return, 2)])), [3, 3]);
    assert_eq!(charges(repeats, [0; 2], 3, &tariff(1_000, [(LoadInt, 0), (Not, 999), (Return, 2)])), [2, 3]);

    // Round once more by a branch that is always taken.
    for (conditional, known, first) in [(JumpIf, 1, 0), (JumpIfNot, 0, 1)] {
        let decides = format!(
            ".locals 1
             again: {conditional:?} 0 end
             LoadInt 0 {known}
             {conditional:?} 0 again
             end: Return 0 0"
        );
        assert_eq!(opcodes(&rewritten(&unit(&decides))), [conditional, LoadInt, Jump, Return]);
        assert_eq!(charges(&decides, [first], 5, &tariff(1_000, [(Return, 3)])), [5, 5]);
        assert_eq!(charges(&decides, [first], 5, &tariff(1_000, [(conditional, 999), (Return, 3)])), [4, 5]);
    }
}

/// "and the given function returns, panics or runs out at its end within the step limit": at the limit, and at another
/// instruction, the rewritten one may be further on.
#[test]
fn the_end_cannot_be_left_out() {
    let price = tariff(1_000, [(Hint, 0)]);
    let hint = "Hint\n Return 0 0";
    assert_eq!(charges(hint, [], 1, &price), [0, 1]);
    assert_eq!(charges(hint, [], 2, &price), [1, 1]);
    let unused = ".locals 1\n AddF 0 0 0\n Return 0 0";
    assert_eq!(charged(&unit(unused), [3], 9, &price), (other(0), 0));
    assert_eq!(charged(&rewritten(&unit(unused)), [3], 9, &price), (returned(0, 0), 1));
}

/// "the rewritten one is never charged above it", by one price for all, for each way to end.
#[test]
fn never_charged_above() {
    let cent = tariff(1_000, []);
    assert_eq!(charges(".locals 2\n Copy 1 0\n Return 1 1", [6, 7], 9, &cent), [2, 1]);
    assert_eq!(charges(".locals 2\n LoadInt 0 7\n LoadInt 0 8\n Panic 0", [6, 7], 9, &cent), [3, 2]);
    assert_eq!(charges(".locals 1\n Hint\n JumpIf 0 +1\n LoadInt 0 1", [6], 9, &cent), [3, 1]);
}

/// L2 makes a Copy of an operator too, of a sum that is too wide for LoadInt: never of LoadConst, whose price is free.
#[test]
fn wide_sums_are_covered() {
    let wide = ".locals 2\n .const int 1099511627776\n LoadConst 0 0\n Or 1 0 0\n Return 0 2";
    assert_eq!(opcodes(&rewritten(&unit(wide))), [LoadConst, Copy, Return]);
    let price = |or| tariff(1_000, [(LoadInt, 0), (LoadConst, 0), (Or, or), (Return, 1)]);
    assert_eq!(charges(wide, [0; 2], 3, &price(1_000)), [2, 2]);
    assert_eq!(charges(wide, [0; 2], 3, &price(999)), [1, 2]);
    let loads = unit(".locals 2\n .const int 1099511627776\n LoadConst 0 0\n LoadConst 1 0\n Return 0 2");
    assert_eq!(lampruda::Workspace::default().pass(&loads), lampruda::Answer::Unchanged);
}
