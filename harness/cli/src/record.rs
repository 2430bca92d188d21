//! `harness record`: the recorded answers, a fixed list of units with the reference's answers.

use generate::{every_damage, every_opcode, named, PROFILES};
use std::collections::HashSet;
use std::fs;
use std::path::Path;

/// At the repository's root.
const FILE: &str = concat!(env!("CARGO_MANIFEST_DIR"), "/../../crates/replay/data/answers.txt");

const SEED: u64 = 2;

/// The longest unit drawn for the list; the listing program reads up to 2,048 bytes.
const MAX_LEN: usize = 480;

/// How many units the list has of each profile whose units are small.
const SHARES: [(&str, usize); 15] = [
    ("straight", 180),
    ("holders", 120),
    ("branches", 180),
    ("loops", 200),
    ("jumps", 80),
    ("stages", 150),
    ("opcodes", 120),
    ("pairs", 60),
    ("spoiled", 140),
    ("edges", 120),
    ("selects", 60),
    ("constants", 80),
    ("counts", 80),
    ("damaged", 40),
    ("mixed", 30),
];

pub fn run(options: &[&str]) -> Result<(), String> {
    match options {
        [] => write(Path::new(FILE)),
        ["--out", file] => write(Path::new(file)),
        ["--check"] => check(Path::new(FILE)),
        _ => Err(crate::USAGE.into()),
    }
}

fn write(file: &Path) -> Result<(), String> {
    let text = text();
    fs::write(file, &text).map_err(|error| format!("{}: {error}", file.display()))?;
    println!("{} units, {} bytes", lines_of_units(&text).count(), text.len());
    Ok(())
}

/// Makes the answers again and compares.
fn check(file: &Path) -> Result<(), String> {
    let committed = fs::read_to_string(file).map_err(|error| format!("{}: {error}", file.display()))?;
    let made = text();
    if committed == made {
        println!("{} recorded answers are the reference's", lines_of_units(&made).count());
        return Ok(());
    }
    let same = committed.lines().zip(made.lines()).take_while(|(old, new)| old == new).count();
    Err(format!("the recorded answers differ from the reference's at line {}", same + 1))
}

fn lines_of_units(text: &str) -> impl Iterator<Item = &str> {
    text.lines().filter(|line| !line.starts_with('#'))
}

/// The named examples that are small.
fn examples() -> Vec<Vec<u8>> {
    named::all().into_iter().filter(|named| named.recorded).map(|named| named.unit).collect()
}

/// The units of the list, in the order that its first lines tell.
fn units() -> Vec<Vec<u8>> {
    let mut units = [examples(), every_damage(SEED), every_opcode(SEED)].concat();
    let mut seen: HashSet<Vec<u8>> = units.iter().cloned().collect();
    for (name, share) in SHARES {
        let profile =
            PROFILES.iter().find(|profile| profile.name == name).expect("a share of a known profile");
        let drawn = (0..).map(|index| profile.unit(SEED, index));
        let small = drawn.filter(|unit| unit.len() <= MAX_LEN && seen.insert(unit.clone()));
        units.extend(small.take(share));
    }
    units
}

fn text() -> String {
    let mut text = header();
    for unit in units() {
        let (pass, clean) = (reference::pass(&unit), reference::clean(&unit));
        text += &format!("{} {pass} {clean}\n", unit::hex::encode(&unit));
    }
    text
}

fn header() -> String {
    let shares: Vec<String> = SHARES.iter().map(|(name, share)| format!("{share} {name}")).collect();
    let shares: Vec<String> = shares.chunks(7).map(|line| line.join(", ")).collect();
    format!(
        "# Recorded answers of the reference. One line for each unit: UNIT PASS CLEAN, with single spaces.
# UNIT is the unit in hexadecimal.
# PASS, one pass: unchanged | refused NUMBER PLACE | rewritten N' RESULT
# CLEAN, the cleaning: unchanged J | refused NUMBER PLACE J | rewritten N' J RESULT
# J is the number of the last pass run; RESULT is the output's first 24 + 28 N' + 8 L' bytes in hexadecimal.
# Made by the harness (seed {SEED}) from volang's optimize.rs, pc_map.rs, instruction.rs and
# instruction_effects.rs with document 02's changes. In this order: {} named examples
# (harness/generate/src/named.rs), {} damages of one unit, {} units that have every opcode,
# and of the generator's profiles {}.
# Made again by:         cargo run --release --manifest-path harness/Cargo.toml -- record
# Made and compared by:  cargo run --release --manifest-path harness/Cargo.toml -- record --check
",
        examples().len(),
        every_damage(SEED).len(),
        every_opcode(SEED).len(),
        shares.join(",\n# ")
    )
}

#[cfg(test)]
mod tests {
    use super::*;
    use std::collections::BTreeMap;
    use unit::Answer;

    /// How often each answer is in the list, by its first words.
    fn answers() -> BTreeMap<String, usize> {
        let mut answers = BTreeMap::new();
        let sort = |answer: &Answer| match answer {
            Answer::Unchanged => "unchanged".into(),
            Answer::Refused { number, .. } => format!("refused {number}"),
            Answer::Rewritten { .. } => "rewritten".into(),
        };
        for unit in units() {
            let cleaned = reference::clean(&unit);
            *answers.entry(sort(&reference::pass(&unit))).or_default() += 1;
            *answers.entry(format!("pass {}: {}", cleaned.pass, sort(&cleaned.answer))).or_default() += 1;
        }
        answers
    }

    #[test]
    fn every_answer_is_recorded() {
        let answers = answers();
        println!("{answers:#?}");
        let refused = [1, 3, 4, 5, 6, 7, 8, 9, 10].map(|number| format!("refused {number}"));
        let others =
            ["unchanged", "rewritten", "pass 1: unchanged", "pass 2: rewritten", "pass 3: rewritten"];
        let late = ["pass 2: refused 8", "pass 2: refused 10", "pass 3: refused 8", "pass 3: refused 10"];
        for answer in refused.iter().map(String::as_str).chain(others).chain(late) {
            assert!(answers.get(answer).is_some_and(|count| *count >= 10), "{answer}");
        }
    }

    #[test]
    fn units_are_small() {
        assert!(units().iter().all(|unit| !unit.is_empty() && unit.len() <= 2_048));
    }

    #[test]
    fn recorded_answers_are_the_references() {
        check(Path::new(FILE)).unwrap();
    }
}
