//! `lampruda job`: cleans every unit of a folder, on all cores.

use super::Command;
use crate::arguments::Arguments;
use crate::console::{self, Colour, Ink};
use crate::input::{self, Input};
use crate::json::Json;
use crate::Status;
use lampruda::{Answer, Workspace};
use std::collections::{BTreeMap, BTreeSet};
use std::fs;
use std::path::{Path, PathBuf};
use std::sync::atomic::{AtomicUsize, Ordering};
use std::thread;
use std::time::{Duration, Instant};
use unit::{Refusal, Rewritten, Section, Unit};

pub const COMMAND: Command = Command {
    name: "job",
    summary: "cleans every unit of a folder, on all cores",
    help: &["Cleans every unit of a folder (files *.unit) on all cores. Says how many
instructions there were and are, and which units were refused.

usage: lampruda job [-o RESULTS] [--unit] [--json] FOLDER

  -o RESULTS  writes each rewritten function's result to RESULTS/*.result
  --unit      writes units instead, RESULTS/*.unit: each result laid out as a
              unit again, and the unchanged units as they are
  --json      prints the summary as JSON

Exit status 1 says that a unit was refused, 2 that one could not be read.

example: lampruda job -o target/cleaned --unit examples
"],
    flags: &["--unit", "--json"],
    values: &["-o"],
    run,
};

/// How often the progress is shown.
const PAUSE: Duration = Duration::from_millis(100);

/// Where results go, and whether as units.
#[derive(Clone, Copy)]
struct Results<'a> {
    folder: &'a Path,
    units: bool,
}

fn run(arguments: Arguments) -> Result<Status, String> {
    let folder = arguments.folder()?;
    let files = units(folder)?;
    let results = results(&arguments, folder)?;
    let begun = Instant::now();
    let next = AtomicUsize::new(0);
    let done = AtomicUsize::new(0);
    let threads = thread::available_parallelism().map_or(1, |count| count.get()).min(files.len());
    let summaries: Vec<Summary> = thread::scope(|scope| {
        let clean = || {
            let mut workspace = Workspace::default();
            let mut summary = Summary::default();
            while let Some(file) = files.get(next.fetch_add(1, Ordering::Relaxed)) {
                if let Err(message) = summary.clean(&mut workspace, file, results) {
                    summary.unreadable.insert(message);
                }
                done.fetch_add(1, Ordering::Relaxed);
            }
            summary.time = begun.elapsed();
            summary
        };
        let handles: Vec<_> = (0..threads).map(|_| scope.spawn(clean)).collect();
        while handles.iter().any(|handle| !handle.is_finished()) {
            show(done.load(Ordering::Relaxed), files.len(), false);
            thread::sleep(PAUSE.min(begun.elapsed()));
        }
        show(done.load(Ordering::Relaxed), files.len(), true);
        handles.into_iter().map(|handle| handle.join().expect("a worker panicked")).collect()
    });
    let mut all = Summary::default();
    summaries.into_iter().for_each(|summary| all.add(summary));
    let text = if arguments.has("--json") { all.json().line() } else { all.text(Ink::out()) };
    console::print(text)?;
    all.unreadable.iter().for_each(|message| eprintln!("lampruda: {message}"));
    Ok(all.status())
}

/// The folder's units, in the order of their names.
fn units(folder: &Path) -> Result<Vec<PathBuf>, String> {
    let failed = |error| input::failed(folder, &error);
    let mut files = Vec::new();
    for entry in fs::read_dir(folder).map_err(failed)? {
        let file = entry.map_err(failed)?.path();
        if file.extension().is_some_and(|extension| extension == "unit") {
            files.push(file);
        }
    }
    files.sort();
    match files.is_empty() {
        true => Err(format!("{}: no units (*.unit) in this folder", folder.display())),
        false => Ok(files),
    }
}

/// The folder for results is made if need be. Units are not written over the ones that are read.
fn results<'a>(arguments: &'a Arguments, given: &Path) -> Result<Option<Results<'a>>, String> {
    let units = arguments.has("--unit");
    let Some(folder) = arguments.value("-o") else {
        return if units { Err(arguments.usage("--unit needs -o RESULTS")) } else { Ok(None) };
    };
    fs::create_dir_all(folder).map_err(|error| input::failed(folder, &error))?;
    if units && fs::canonicalize(folder).ok() == fs::canonicalize(given).ok() {
        return Err(arguments.usage("the results would be written over the units: name another folder"));
    }
    Ok(Some(Results { folder, units }))
}

fn show(done: usize, of: usize, last: bool) {
    console::show(&format!("{done} of {of} units"), last);
}

#[derive(Default)]
struct Summary {
    units: usize,
    unchanged: usize,
    rewritten: usize,
    /// Instructions of all units that were not refused, before and after.
    before: usize,
    after: usize,
    refused: BTreeMap<String, Refused>,
    /// What went wrong with a file.
    unreadable: BTreeSet<String>,
    /// Until the last unit was done.
    time: Duration,
}

struct Refused {
    number: u32,
    place: u32,
    pass: u32,
}

impl Summary {
    fn clean(
        &mut self,
        workspace: &mut Workspace,
        file: &Path,
        results: Option<Results>,
    ) -> Result<(), String> {
        let Input { name, bytes } = Input::file(file)?;
        self.units += 1;
        let cleaned = workspace.clean(&bytes);
        let before = Unit::check(&bytes).map_or(0, |unit| unit.header().count(Section::Code)) as usize;
        let (after, result) = match cleaned.answer {
            Answer::Refused { number, place } => {
                self.refused.insert(name, Refused { number, place, pass: cleaned.passes });
                return Ok(());
            }
            Answer::Unchanged => {
                self.unchanged += 1;
                (before, None)
            }
            Answer::Rewritten(result) => {
                self.rewritten += 1;
                (Rewritten::decode(result).map_or(0, |result| result.retained.len()), Some(result))
            }
        };
        self.before += before;
        self.after += after;
        match (results, file.file_stem()) {
            (Some(results), Some(stem)) => results.write(Path::new(stem), &bytes, result),
            _ => Ok(()),
        }
    }

    fn add(&mut self, other: Self) {
        self.units += other.units;
        self.unchanged += other.unchanged;
        self.rewritten += other.rewritten;
        self.before += other.before;
        self.after += other.after;
        self.refused.extend(other.refused);
        self.unreadable.extend(other.unreadable);
        self.time = self.time.max(other.time);
    }

    fn status(&self) -> Status {
        if !self.unreadable.is_empty() {
            Status::Unreadable
        } else if !self.refused.is_empty() {
            Status::Refused
        } else {
            Status::Done
        }
    }

    fn text(&self, ink: Ink) -> String {
        let share = 100.0 * (self.before - self.after) as f64 / self.before.max(1) as f64;
        let mut text = format!(
            "{} units in {:.3} seconds
instructions: {} before, {} after, {share:.1} % removed
{} rewritten, {} unchanged, {} refused\n",
            self.units,
            self.time.as_secs_f64(),
            self.before,
            self.after,
            self.rewritten,
            self.unchanged,
            self.refused.len()
        );
        if self.refused.is_empty() {
            return text;
        }
        let widest = self.refused.keys().map(|name| name.chars().count()).max().unwrap_or(0);
        text.push('\n');
        for (name, Refused { number, place, pass }) in &self.refused {
            let refused = ink.paint(Colour::Red, &format!("refused {number}"));
            text += &format!("{name:widest$}  {refused}, place {place}, pass {pass}\n");
        }
        text.push('\n');
        let numbers: BTreeSet<u32> = self.refused.values().map(|refused| refused.number).collect();
        for number in numbers {
            let meaning = Refusal::from_number(number).map_or("", Refusal::meaning);
            text += &format!("refused {number}: {meaning}\n");
        }
        text + "lampruda clean FILE says more about one of them.\n"
    }

    fn json(&self) -> Json {
        let refused = |(name, refused): (&String, &Refused)| {
            Json::Object(vec![
                ("file", name.as_str().into()),
                ("number", refused.number.into()),
                ("place", refused.place.into()),
                ("pass", refused.pass.into()),
                ("meaning", Refusal::from_number(refused.number).map(Refusal::meaning).into()),
            ])
        };
        Json::Object(vec![
            ("units", self.units.into()),
            ("microseconds", (self.time.as_micros() as u64).into()),
            ("before", self.before.into()),
            ("after", self.after.into()),
            ("rewritten", self.rewritten.into()),
            ("unchanged", self.unchanged.into()),
            ("refused", Json::List(self.refused.iter().map(refused).collect())),
            ("unreadable", Json::List(self.unreadable.iter().map(|text| text.as_str().into()).collect())),
        ])
    }
}

impl Results<'_> {
    /// A unit's result: as a unit, or where it was rewritten.
    fn write(self, stem: &Path, given: &[u8], result: Option<&[u8]>) -> Result<(), String> {
        let bytes = match (self.units, result) {
            (true, Some(result)) => lampruda::as_unit(given, result).ok_or("the library laid no unit out")?,
            (true, None) => given.to_vec(),
            (false, Some(result)) => result.to_vec(),
            (false, None) => return Ok(()),
        };
        let extension = if self.units { "unit" } else { "result" };
        input::write(Some(&self.folder.join(stem).with_extension(extension)), &bytes).map(|_| ())
    }
}
