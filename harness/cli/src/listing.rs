//! `harness listing` and `harness listings`: what the listing program prints, by the reference's pass.

use crate::examples::read;
use generate::named;
use std::io::{ErrorKind, Write};
use std::path::Path;
use std::process::{Command, Stdio};
use unit::{Answer, Lengths, Unit};

/// What the listing program reads, and what it lends to its pass.
const LONGEST: usize = 2_048;
const LENT: Lengths = Lengths { out: 8_192, work32: 4_096, work64: 8_192, first: 0, second: 0 };

const SEED: u64 = 1;

/// "a longer one is refused 2"
pub fn listing_of(bytes: &[u8]) -> String {
    let lacks_room = |unit: Unit| {
        let asks = unit.refusal().is_none() && unit.is_worked_on();
        asks && !LENT.suffice(&unit.stated_lengths().of_one_pass())
    };
    let short = bytes.len() > LONGEST || Unit::check(bytes).is_some_and(lacks_room);
    let answer = if short { Answer::SHORT_BUFFER } else { reference::pass(bytes) };
    answer.listing()
}

pub fn run(options: &[&str]) -> Result<(), String> {
    let [file] = options else { return Err(crate::USAGE.into()) };
    print!("{}", listing_of(&read(Path::new(file))?));
    Ok(())
}

/// Holds the listing program against the reference, on the named examples and so many generated units.
pub fn compare(options: &[&str]) -> Result<(), String> {
    let [program, count] = options else { return Err(crate::USAGE.into()) };
    let count = count.parse().map_err(|_| format!("not a number: {count}"))?;
    let named = named::all().into_iter().map(|named| named.unit);
    let drawn = (0..count).map(|index| generate::survey(SEED, index).1);
    let mut compared = 0;
    for unit in named.chain(drawn) {
        let (printed, expected) = (printed(program, &unit)?, listing_of(&unit));
        if printed != expected {
            let unit = unit::hex::encode(&unit[..unit.len().min(LONGEST)]);
            return Err(format!("printed:\n{printed}expected:\n{expected}for {unit}"));
        }
        compared += 1;
    }
    println!("{compared} listings are as expected");
    Ok(())
}

/// What a program prints for a unit on its standard input.
fn printed(program: &str, unit: &[u8]) -> Result<String, String> {
    let failed = |error| format!("{program}: {error}");
    let mut child =
        Command::new(program).stdin(Stdio::piped()).stdout(Stdio::piped()).spawn().map_err(failed)?;
    // It may have read enough before the end of a long unit.
    match child.stdin.take().expect("the input is piped").write_all(unit) {
        Err(error) if error.kind() != ErrorKind::BrokenPipe => return Err(failed(error)),
        _ => {}
    }
    let output = child.wait_with_output().map_err(failed)?;
    Ok(String::from_utf8_lossy(&output.stdout).into_owned())
}
