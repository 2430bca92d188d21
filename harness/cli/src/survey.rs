//! `harness survey`: how often each answer occurs, by profile.

use generate::PROFILES;
use std::collections::BTreeMap;
use unit::Answer;

/// The survey's seed and number of units where none is given.
const SEED: u64 = 1;
const COUNT: u64 = 20_000;

/// The table's columns. One pass: unchanged, rewritten, refused with each number that the reference can give.
/// Cleaning: unchanged, rewritten, refused with the number of the last pass run.
const COLUMNS: [&str; 19] = [
    "unch", "rewr", "ref 1", "ref 3", "ref 4", "ref 5", "ref 6", "ref 7", "ref 8", "ref 9", "ref 10",
    "ref 11", "ref 13", "unch:1", "rewr:2", "rewr:3", "ref:1", "ref:2", "ref:3",
];

type Row = [u64; COLUMNS.len()];

pub fn run(options: &[&str]) -> Result<(), String> {
    let (seed, count) = parse(options)?;
    let table = survey(seed, count);
    println!("seed {seed}, {count} units");
    println!("one pass: unchanged, rewritten, refused with its number;");
    println!("cleaning: unchanged, rewritten, refused with the number of the last pass run");
    print("profile", "units", &COLUMNS);
    for profile in PROFILES {
        if let Some(row) = table.get(profile.name) {
            print(profile.name, units(row), row);
        }
    }
    let total = total(&table);
    print("all", units(&total), &total);
    Ok(())
}

/// The seed and the number of units.
pub fn parse(options: &[&str]) -> Result<(u64, u64), String> {
    let (mut seed, mut count) = (SEED, COUNT);
    for pair in options.chunks(2) {
        let number = |text: &str| text.parse().map_err(|_| format!("not a number: {text}"));
        match *pair {
            ["--seed", value] => seed = number(value)?,
            ["--count", value] => count = number(value)?,
            _ => return Err(crate::USAGE.into()),
        }
    }
    Ok((seed, count))
}

/// The answers' counts by profile.
fn survey(seed: u64, count: u64) -> BTreeMap<&'static str, Row> {
    let mut table: BTreeMap<&str, Row> = BTreeMap::new();
    for index in 0..count {
        let (profile, unit) = generate::survey(seed, index);
        let row = table.entry(profile.name).or_default();
        let cleaned = reference::clean(&unit);
        let pass = match reference::pass(&unit) {
            Answer::Refused { number, .. } => format!("ref {number}"),
            answer => sort(&answer).into(),
        };
        for name in [pass, format!("{}:{}", sort(&cleaned.answer), cleaned.pass)] {
            let column = COLUMNS.iter().position(|column| *column == name);
            row[column.unwrap_or_else(|| panic!("{name} of {} {index}", profile.name))] += 1;
        }
    }
    table
}

fn sort(answer: &Answer) -> &'static str {
    match answer {
        Answer::Unchanged => "unch",
        Answer::Rewritten { .. } => "rewr",
        Answer::Refused { .. } => "ref",
    }
}

/// Each unit has two answers, that of one pass and that of the cleaning.
fn units(row: &Row) -> u64 {
    row.iter().sum::<u64>() / 2
}

fn total(table: &BTreeMap<&str, Row>) -> Row {
    std::array::from_fn(|column| table.values().map(|row| row[column]).sum())
}

fn print(name: &str, units: impl ToString, cells: &[impl ToString]) {
    let cells: String = cells.iter().map(|cell| format!("{:>7}", cell.to_string())).collect();
    println!("{name:<10}{:>7}{cells}", units.to_string());
}

#[cfg(test)]
mod tests {
    use super::*;

    #[test]
    fn every_answer_occurs_often() {
        let total = total(&survey(SEED, 10_000));
        for (column, count) in COLUMNS.iter().zip(total) {
            assert!(count >= 50, "{column}: {count}");
        }
    }
}
